#!/bin/sh
# program.sh NAME: prints the path of the program of the crate NAME, a directory crates/NAME with src/main.rt.
#
# If the program is missing or older than a source, the crate is proved and the program built first, with progress on
# standard error (docs/CONTRIBUTING.md says how long). With BUILT=only in the environment a program that has to be built
# is an error. Without the kit the program is that of a release: one that is unpacked at the top of the checkout, or one
# on the PATH.
arguments='NAME'
. "$(dirname "$0")/arguments.sh"
. "$here/released.sh"
name=$1
crate=$top/crates/$name
program=$crate/out/$name
[ -f "$crate/src/main.rt" ] || usage "there is no program $name"

# crates NAME: the crate and those of the repository below it
crates() {
    echo "$1"
    for below in $(sed -n "s/^$1\( [^:]*\)\{0,1\}: *//p" "$top/crates.txt"); do
        [ ! -d "$top/crates/$below" ] || crates "$below"
    done
}

# newer: a source that is newer than the program, if there is one
newer() {
    for source in $(crates "$name"); do
        find "$top/crates/$source" \( -name out -o -name must-fail \) -prune \
            -o \( -name '*.rt' -o -name '*.antt' \) -newer "$program" -print -quit
    done
}

# progress: says how far rt is, from its output
progress() {
    while read -r line; do
        case $line in
            'rt: chose --jobs '*)
                proving=${line##* }
                echo "proving $proving" >&2
                ;;
            'so far: '*' functions checked') echo "$proving: ${line#so far: }" >&2 ;;
        esac
    done
}

# build: proves the crate and builds its program, which runs once, with the arguments of the gate
build() {
    make_work
    cd "$crate"
    set --
    if [ -f args ]; then
        while read -r argument; do
            set -- "$@" "$argument"
        done < args
    fi
    {
        rt run -- "$@" < /dev/null 2>&1 > "$work/out" || echo failed > "$work/failed"
    } | tee "$work/log" | progress
    if [ -f "$work/failed" ]; then
        cat "$work/log" >&2
        echo "$script: $name was not built" >&2
        exit 1
    fi
    touch "$program"
}

if [ ! -x "$program" ] && program_of_release=$(released "$name" "$top/$name"); then
    program=$program_of_release
elif [ ! -x "$program" ] || [ -n "$(newer)" ]; then
    if [ "${BUILT:-}" = only ]; then
        echo "$script: $name is not built" >&2
        exit 1
    fi
    need_kit
    build
fi
echo "$program"
