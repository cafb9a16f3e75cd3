#!/bin/sh
# try_release.sh RELEASE [SUITE..]: tries a release that tools/make_release.py made in the directory RELEASE.
#
# lintian must find no fault in its Debian packages. Then each form of the release is installed, used and removed in a new
# system of each Debian release (bullseye, bookworm and trixie), which has no Rattle kit: packaging/try_in_tree.sh says
# how. The systems are made by debootstrap in a directory that is removed at the end; if TREES is in the environment,
# TREES/SUITE is copied instead. It needs root, and what tools/install_needs.sh --release installs.
arguments='RELEASE [SUITE..]'
. "$(dirname "$0")/arguments.sh"
[ -f "$1/BUILD.json" ] || usage "there is no release in $1"
release=$(cd "$1" && pwd)
shift
[ $# -gt 0 ] || set -- bullseye bookworm trixie
[ "$(id -u)" = 0 ] || { echo "$script: this needs root" >&2; exit 2; }
mirror=${MIRROR:-http://deb.debian.org/debian}
make_work
failed=

# fail WHAT: notes a fault
fail() {
    echo "$script: $1" >&2
    failed=1
}

# make_system SUITE: makes a system
make_system() {
    if [ -n "${TREES:-}" ]; then
        cp -a "$TREES/$1" "$work/$1"
    else
        debootstrap --variant=minbase "$1" "$work/$1" "$mirror" > "$work/log" 2>&1 || {
            tail -n 5 "$work/log" >&2
            return 1
        }
    fi
}

# try SUITE: makes a system and tries the release there
try() {
    make_system "$1" || return 1
    mkdir "$work/$1/release"
    cp "$release"/* "$top/packaging/try_in_tree.sh" "$top/README.md" "$top/docs/C.md" "$work/$1/release/"
    chroot "$work/$1" /usr/bin/env -i PATH=/usr/sbin:/usr/bin:/sbin:/bin HOME=/root LC_ALL=C.UTF-8 \
        sh /release/try_in_tree.sh
}

lintian --allow-root --fail-on error,warning "$release"/*.deb || fail 'lintian found faults'
for suite; do
    start=$(date +%s)
    if try "$suite"; then
        echo "$suite: passed, $(($(date +%s) - start)) s"
    else
        fail "$suite: failed"
    fi
    rm -rf "${work:?}/$suite"
done
[ -z "$failed" ]
