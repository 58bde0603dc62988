"""What an architect needs around the program `xlate`: from a program to a trace, from a trace to rows, from rows to a
table, a picture or a page. Each module of `xlab.commands` is a subcommand."""
