"""The subcommands: each module here is one, by its own name.

A subcommand's module has

- `SUMMARY`: what it does, in a line of `xlab --help`;
- `DESCRIPTION`: the first paragraphs of its own help;
- `EXAMPLES`: one or more command lines, each with a word on what it gives, as `examples.Example`;
- `NEEDS`: what it wants beside Python itself (`xlab.needs.Needs`);
- `add_parser(parser)`: adds its words to a parser that has all of the above;
- `run(words) -> int`: does the work, and gives the status. It raises `messages.Fault` where it can't.

Where it has `PASSES_ON = True`, words that are none of its own are no fault, and stand in `words.words`.

Libraries that are not Python's own are imported inside `run` or what it calls, so that `xlab --help` is quick and works
where they are missing.
"""
