#!/bin/sh
# fetch_real.sh DIRECTORY: takes mails out of Debian's source packages, the test data of mail software, and
# puts them into DIRECTORY, which must not be there, in a directory for each package.
#
# It needs apt-get, tar and a way to Debian's registry, and changes nothing of the system. Of each package it
# takes the upstream source alone, of the first of some releases whose archive is there. A file counts as a mail
# if it is among tests and its first line is a header, or a separator of a mailbox. A package that cannot
# be fetched is left out and named. The mails are not ours: commit none of them.
#
# The last line is `N mails of M packages`; the exit status is 1 if there are none.
arguments='DIRECTORY'
. "$(dirname "$0")/../tools/arguments.sh"
packages='python3.11 notmuch gmime kmime kf5-messagelib rspamd spamassassin maildir-utils mailman3
    libmime-tools-perl libemail-mime-perl libmail-box-perl libmail-deliverystatus-bounceparser-perl'
releases='bookworm trixie sid'
[ ! -e "$1" ] || usage "$1 is there"
mkdir "$1" 2> /dev/null || usage "$1 cannot be made"
directory=$(cd "$1" && pwd)
make_work
cd "$work"
mkdir -p lists/partial cache/archives/partial
for release in $releases; do
    echo "deb-src http://deb.debian.org/debian $release main"
done > sources.list

# apt WORD..: apt-get with lists of its own
apt() {
    apt-get -q -q -o "Dir::Etc::sourcelist=$work/sources.list" -o Dir::Etc::sourceparts=- \
        -o "Dir::State::lists=$work/lists" -o "Dir::Cache=$work/cache" -o APT::Sandbox::User=root "$@"
}

# fetch NAME: unpacks the upstream source of a package, of the first release that has it, into source/
fetch() {
    for release in $releases; do
        rm -rf source ./*.tar.*
        if apt source --download-only --tar-only "$1/$release" > log 2>&1; then
            mkdir source
            for archive in ./*.tar.*; do
                tar -xf "$archive" -C source
            done
            return 0
        fi
    done
    return 1
}

# take NAME: puts the mails of an unpacked source into the directory, numbered in the order of their paths
take() {
    mkdir -p "$directory/$1"
    number=0
    find source -type f -size -2000k | LC_ALL=C sort > files
    while read -r file; do
        case $file in
            */t/* | */test/* | */tests/* | */test_* | */testdata/* | */testmsgs/* | */autotests/* | */fixtures/*) ;;
            *) continue ;;
        esac
        if head -n 1 "$file" | LC_ALL=C grep -aqE '^(From |[A-Za-z][A-Za-z0-9-]*:( |$))' &&
            head -n 60 "$file" | LC_ALL=C grep -aqiE '^(from|to|date|subject|received|message-id|content-type|mime-version):'; then
            number=$((number + 1))
            cp "$file" "$directory/$1/$(printf '%04d' "$number")-$(basename "$file")"
        fi
    done < files
    echo "$1: $number mails" >&2
    [ "$number" -gt 0 ] || rmdir "$directory/$1"
}

apt update
taken=0
for name in $packages; do
    if fetch "$name"; then
        take "$name"
        [ ! -d "$directory/$name" ] || taken=$((taken + 1))
    else
        echo "$name could not be fetched: $(tail -n 1 log)" >&2
    fi
done
mails=$(find "$directory" -type f | wc -l)
echo "$mails mails of $taken packages"
[ "$mails" -gt 0 ]
