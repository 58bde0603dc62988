#compdef xlate
_arguments \
    '1:form:((curve\:"hits of all widths in one pass" nested\:"a guest over a host\: two stages" harts\:"several harts with queued fences"))' \
    '--sets[of curve\: sets of the array, 1 to 256]:number:' \
    '--config[the rows, in TOML]:configuration:_files -g "*.toml"' \
    '--script[mapping commands]:script:_files' \
    '--trace[records as Lackey writes them]:trace:_files' \
    '--make[made records, 1 to 1048576]:number:' \
    '--answers[a line for each access and command]' \
    '--image[the words of each radix table]' \
    '--json[the rows as one line of JSON]' \
    '--proved[by the proved program]' \
    '(- *)'{-h,--help}'[words, statuses and pages to read]' \
    '(- *)--version[which program it is]'
