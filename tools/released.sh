# What scripts of a checkout use without the kit; they source this file after they set `top`.

# unpacked PATH: prints the path of a file of a release that is unpacked at the top of the checkout. With the kit it fails.
unpacked() {
    ! command -v rt > /dev/null || return 1
    for file in "$top"/rocktray-*/"$1"; do
        if [ -e "$file" ]; then
            echo "$file"
            return
        fi
    done
    return 1
}

# released NAME SELF: prints where the program NAME of a release is: in one that is unpacked at the top of the checkout,
# or on the PATH, if that is not the script SELF. With the kit there is none.
released() {
    ! command -v rt > /dev/null || return 1
    for program in "$(unpacked "bin/$1")" "$(command -v "$1")"; do
        if [ -x "$program" ] && ! [ "$program" -ef "$2" ]; then
            echo "$program"
            return
        fi
    done
    return 1
}
