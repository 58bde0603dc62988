# shellcheck shell=bash disable=SC2154  # `top` is set where this is sourced
# What ./xlate, ./prove and ./install have in common. Sourced where `top` is the top of the repository, or PREFIX/lib/xlate.
# out/xlate is the program that is served; out/xlate.built is its record, in TOML:
#     version   what VERSION says
#     commit    the commit of the sources, with `+changes` where crates/ differed from it
#     kit       the kit that made the program
#     proved    whether it was proved
#     sources   SHA-256 of the checksums of crates.txt and of all files of crates/*/src and crates/*/specs
#     checksum  SHA-256 of the program; where the program has another, the record is of another program
program=$top/out/xlate
record=$program.built

# What the record says of KEY.
field() {
    sed -n "s/^$1 = \"\\{0,1\\}\\([^\"]*\\)\"\\{0,1\\}\$/\\1/p" "$record" 2> /dev/null || true
}

list_sources() {
    (cd "$top" && find crates/*/src crates/*/specs crates.txt "$@")
}

sources() {
    list_sources -type f | LC_ALL=C sort | (cd "$top" && xargs -d '\n' sha256sum) | sha256sum | cut -c1-64
}

checksum() {
    sha256sum "$1" | cut -c1-64
}

commit() {
    local at
    if ! at=$(git -C "$top" rev-parse HEAD 2> /dev/null); then
        echo unknown
    elif [ -z "$(git -C "$top" status --porcelain -- crates crates.txt)" ]; then
        echo "$at"
    else
        echo "$at+changes"
    fi
}

# Whether the program is there, and made of the sources as they are. An installed one has no sources.
is_fresh() {
    [ -x "$program" ] && [ -f "$record" ] || return 1
    [ -d "$top/crates" ] || return 0
    [ -n "$(list_sources -newer "$record" -print -quit)" ] || return 0
    [ "$(sources)" = "$(field sources)" ] && touch "$record"
}

is_proved() {
    is_fresh && [ "$(field proved)" = true ] && [ "$(field checksum)" = "$(checksum "$program")" ]
}

# need_kit NAME: ends the script NAME where the kit is not installed.
need_kit() {
    if ! command -v rt > /dev/null; then
        echo "$1: the program must be made first, and the kit's command rt is not there (README.md, \"What it needs\")" >&2
        exit 9
    fi
}

# One at a time makes the program; others wait for it.
lock() {
    mkdir -p "$top/out"
    exec 9> "$top/out/lock"
    flock 9
}

# begin: notes what the program is about to be made of, so that a source that changes meanwhile is seen.
begin() {
    begun=$top/out/begun
    touch "$begun"
    begun_sources=$(sources)
    begun_commit=$(commit)
}

# keep MADE PROVED: serves the file MADE, with its record.
keep() {
    rm -f "$record"
    cp "$1" "$program.new"
    chmod 755 "$program.new"
    mv "$program.new" "$program"
    cat > "$record.new" <<TOML
version = "$(cat "$top/VERSION")"
commit = "$begun_commit"
kit = "$(rt version | head -n 1)"
proved = $2
sources = "$begun_sources"
checksum = "$(checksum "$program")"
TOML
    touch -r "$begun" "$record.new"
    mv "$record.new" "$record"
}

# Makes a native program of the sources as they are, before it is proved, where no other run has made it meanwhile.
make_unproved() {
    need_kit xlate
    lock
    if is_fresh; then return; fi
    echo "xlate: a program is made first, which takes one to five minutes; it is NOT proved (./prove proves it)" >&2
    begin
    if ! "$top/tools/speed/unproved" "$top/out/made" 9>&- < /dev/null >&2; then
        echo "xlate: the program could not be made" >&2
        exit 9
    fi
    keep "$top/out/made" false
    rm -f "$top/out/made"
    echo "xlate: out/xlate is made in $SECONDS seconds, and serves from here on, unproved" >&2
}
