# How the shell scripts of this repository read their arguments. A script has its help as the comment at its head; it
# names its arguments, in brackets those that may be left out, with two dots one that may occur more
# than once, and then sources this file:
#
#     arguments='[--OPTION] NAME [ORACLE]'
#     . "$(dirname "$0")/arguments.sh"
#
# `--help` prints the help. Too few or too many arguments, and an unknown option, end the script with
# exit status 2. What it sets: `script` (its name), `here` (this directory) and `top` (the repository).
set -eu
script=$(basename "$(readlink -f "$0")")
here=$(dirname "$(readlink -f "$0")")
# scripts at the top of the repository and in bench source this file too
case $here in
    */tools | */bench) top=$(dirname "$here") ;;
    *) top=$here ;;
esac
here=$top/tools

# usage [WHY]: ends the script, whose arguments are wrong
usage() {
    [ $# = 0 ] || echo "$script: $1" >&2
    echo "usage: $script${arguments:+ $arguments}" >&2
    exit 2
}

# help: prints the comment at the head of the script
help() {
    sed -n '1d; /^#/! q; s/^# \{0,1\}//p' "$0"
}

# need_kit: ends the script if the kit is missing
need_kit() {
    command -v rt > /dev/null || {
        echo "$script: this needs the Rattle kit, whose command is rt; README.md says how to get a release" >&2
        exit 2
    }
}

# version [NAME]: prints the version, or another constant of the crate mail_version
version() {
    sed -n "s/^pub const ${1:-VERSION}: .* = \"\{0,1\}\([^\"]*\)\"\{0,1\};$/\1/p" "$top/crates/mail_version/src/lib.rt"
}

# check_arguments ARGUMENT..: prints the help, or refuses what `arguments` does not allow
check_arguments() {
    given=0
    are_names=
    for argument; do
        if [ -n "$are_names" ]; then
            given=$((given + 1))
            continue
        fi
        case $argument in
            -h | --help) help; exit 0 ;;
            --version) case $arguments in *'[--version]'*) echo "$script $(version)"; exit 0 ;; esac; usage "there is no option $argument" ;;
            '') usage 'an argument is empty' ;;
            -) given=$((given + 1)) ;;
            --) are_names=1 ;;
            -*)
                case " $arguments " in
                    *" [$argument] "*) ;;
                    *) usage "there is no option $argument" ;;
                esac
                ;;
            *) given=$((given + 1)) ;;
        esac
    done
    least=0
    most=0
    set -f # text in brackets is not a pattern for files
    for argument in $arguments; do
        case $argument in
            '[-'*) ;;
            '['*'..]') most=$((most + $#)) ;;
            *'..') least=$((least + 1)); most=$((most + $#)) ;;
            '['*) most=$((most + 1)) ;;
            *) least=$((least + 1)); most=$((most + 1)) ;;
        esac
    done
    set +f
    if [ "$given" -lt "$least" ] || [ "$given" -gt "$most" ]; then
        usage
    fi
}
check_arguments "$@"

# make_work: makes `work`, a directory that goes when the script ends
make_work() {
    work=$(mktemp -d)
    trap 'rm -rf "$work"' EXIT
    trap 'exit 130' INT
    trap 'exit 143' TERM HUP
}
