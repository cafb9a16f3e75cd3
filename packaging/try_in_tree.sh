#!/bin/sh
# Tries the forms of a release in a new Debian system, where they are in /release: tools/try_release.sh runs it there, as
# root. Each is installed, used as README.md, docs/C.md and python/README.md say, and removed again.
set -eu
cd /release
samples=/usr/share/doc/rocktray/examples/samples
export DEBIAN_FRONTEND=noninteractive

# note WHAT: says what is tried next
note() {
    echo "$(. /etc/os-release && echo "$VERSION_CODENAME"): $1"
}

# equal WANTED FOUND: ends the run if two texts differ
equal() {
    [ "$1" = "$2" ] || { printf 'wanted: %s\nfound:  %s\n' "$1" "$2" >&2; exit 1; }
}

# example PAGE: what the first example of a page prints
example() {
    sed -n '/^```console/,/^```$/{/^```$/q; /^```/d; /^\$/d; p}' "$1"
}

# install PACKAGE..: installs packages
install() {
    apt-get -qq -y --no-install-recommends install "$@" > log 2>&1 || { tail -n 15 log >&2; exit 1; }
}

# try_program ROCKTRAY SAMPLES: shows a mail, writes its lines and saves its file
try_program() {
    equal "$(example README.md)" "$("$1" show "$2/attachment.eml")"
    "$1" json "$2/attachment.eml" | grep -q '"schema":[0-9]*,.*"subject":"The invoice"'
    mkdir saved
    "$1" extract --into saved "$2/attachment.eml" | grep -q '"saved":'
    equal '%PDF' "$(head -c 4 saved/*.pdf)"
    rm -r saved
    "$1" --version | sed -n 's/^commit //p' | grep -qx "$(sed -n 's/^ "commit": "\(.*\)",$/\1/p' BUILD.json)"
    "$1" json < "$2/plain.eml" > /dev/null
    "$1" json "$2" > lines
    equal "$(ls "$2" | wc -l)" "$(wc -l < lines)"
}

# try_c EXAMPLE SAMPLES FLAG..: compiles the example with these flags and runs it
try_c() {
    example=$1 mails=$2
    shift 2
    cc -Wall -Werror -o attachments "$example" "$@"
    equal "$(example C.md)" "$(./attachments "$mails/attachment.eml")"
    rm attachments
}

# try_python PYTHON SAMPLES: imports the module and reads the samples
try_python() {
    (cd / && "$1" - "$2"/*.eml << 'END_OF_PYTHON'
import sys
import rocktray

mails = {}
for path in sys.argv[1:]:
    with open(path, "rb") as file:
        mails[path.rpartition("/")[2]] = rocktray.parse(file.read())
assert all(list(mail.walk()) for mail in mails.values())
mail = mails["attachment.eml"]
assert mail.subject == "The invoice", mail.subject
assert [part.file_name for part in mail.attachments()] == ["Rechnung für März €-2025.pdf"]
END_OF_PYTHON
    )
}

if command -v rt > /dev/null; then
    echo 'this system has the kit' >&2
    exit 1
fi
apt-get -qq update > /dev/null
install python3 python3-venv python3-pip gcc libc6-dev pkg-config xz-utils

note 'the archive'
start=$(date +%s)
tar -xf rocktray-*-linux-x86_64.tar.xz
tree=$(echo /release/rocktray-*-linux-x86_64)
"$tree/bin/rocktray" show "$tree/share/doc/rocktray/samples/attachment.eml" > /dev/null
note "a mail is shown $(($(date +%s) - start)) s after the archive was there"
try_program "$tree/bin/rocktray" "$tree/share/doc/rocktray/samples"
"$tree/bin/mail_show" "$tree/share/doc/rocktray/samples/attachment.eml" | grep -q '^part 2: '
flags=$(PKG_CONFIG_PATH=$tree/lib/pkgconfig pkg-config --cflags --libs rocktray)
# shellcheck disable=SC2086
LD_LIBRARY_PATH=$tree/lib try_c "$tree/share/doc/rocktray/attachments.c" "$tree/share/doc/rocktray/samples" $flags
try_c "$tree/share/doc/rocktray/attachments.c" "$tree/share/doc/rocktray/samples" "-I$tree/include" "$tree/lib/librocktray.a"
(cd "$tree" && find . -type f | sort | sed 's,^\./,,') > found
sed -n '/^ "contents": {/,/^ }/s/^  "\(.*\)": ".*/\1/p' BUILD.json | sort | diff - found
sed -n 's/^  "\(.*\)": "\([0-9a-f]\{64\}\)",\{0,1\}$/\2  \1/p' BUILD.json | (cd "$tree" && ln -sf /release/*.deb /release/*.whl /release/*.json \
    /release/*.tar.xz . && sha256sum --quiet -c -)
rm -r "$tree"

note 'the packages'
packages='rocktray librocktray0 librocktray-dev'
if python3 -c 'import sys; sys.exit(sys.version_info < (3, 10))'; then
    packages="$packages python3-rocktray"
fi
files=
for package in $packages; do
    files="$files $(echo ./"$package"_*_amd64.deb)"
done
find / -xdev -path /release -prune -o -path /proc -prune -o -print 2> /dev/null | grep rocktray && exit 1
# shellcheck disable=SC2086
install $files
try_program rocktray $samples
mail_show $samples/attachment.eml | grep -q '^part 2: '
# shellcheck disable=SC2046
try_c /usr/share/doc/librocktray-dev/examples/attachments.c $samples $(pkg-config --cflags --libs rocktray)
try_c /usr/share/doc/librocktray-dev/examples/attachments.c $samples /usr/lib/x86_64-linux-gnu/librocktray.a
case $packages in
    *python3*) try_python /usr/bin/python3 $samples ;;
    *) note 'this Python is too old for the module' ;;
esac
bash -n /usr/share/bash-completion/completions/rocktray
cp -r $samples samples
# shellcheck disable=SC2086
apt-get -qq -y purge $packages > log 2>&1
find / -xdev -path /release -prune -o -path /proc -prune -o -path /var/log -prune -o -print 2> /dev/null | grep rocktray && exit 1

case $packages in
    *python3*)
        note 'the wheel'
        python3 -m venv venv
        venv/bin/pip -q install --no-index ./rocktray-*.whl
        try_python /release/venv/bin/python /release/samples
        venv/bin/pip -q uninstall -y rocktray
        ;;
esac
note 'passed'
