#!/bin/sh
# install_needs.sh: installs what the gate needs beyond the kit, Python 3, bash and Debian's own tools, with --readers
# also the mail programs that oracle/readers compares, and with --release what only a release needs. As root on Debian it
# calls apt-get; otherwise, or if that fails, it names the packages that are missing, and ends with exit status 1.
# If nothing is missing it takes a tenth of a second. Modules of Python are those of Debian's /usr/bin/python3.
arguments='[--readers] [--release]'
. "$(dirname "$0")/arguments.sh"
most_tries=30

# needs: the packages, each with the command, the module of Python or the file by which it is seen
needs() {
    cat << 'END'
jq command jq
gcc command cc
g++ command g++
parallel command parallel
mypy command mypy
python3-venv module ensurepip
python3-dev file /usr/include/python3.*/Python.h
python3-setuptools module setuptools
python3-wheel module wheel
python3-pip module pip
python3-pytest module pytest
python3-pytest-xdist module xdist
python3-jsonschema module jsonschema
python3-distributed module distributed
python3-flask module flask
python3-pygal module pygal
chromium command chromium
chromium-driver command chromedriver
python3-selenium module selenium
cargo command cargo
librust-encoding-rs-dev file /usr/share/cargo/registry/encoding_rs-*/Cargo.toml
help2man command help2man
w3m command w3m
lynx command lynx
debhelper command dh
dh-python command dh_python3
END
    case " $* " in *' --readers '*) cat << 'END' ;; esac
pkg-config command pkg-config
golang-go command go
golang-golang-x-text-dev file /usr/share/gocode/src/golang.org/x/text/encoding/htmlindex
libgmime-3.0-dev file /usr/include/gmime-3.0/gmime/gmime.h
libmime-tools-perl file /usr/share/perl5/MIME/Tools.pm
libemail-mime-perl file /usr/share/perl5/Email/MIME.pm
ruby-mail file /usr/share/rubygems-integration/all/specifications/mail-*.gemspec
libmimetic-dev file /usr/include/mimetic/mimetic.h
libvmime-dev file /usr/include/vmime/vmime.hpp
libetpan-dev file /usr/include/libetpan/libetpan.h
default-jdk-headless command javac
libapache-mime4j-java file /usr/share/java/apache-mime4j-dom.jar
END
    case " $* " in *' --release '*) cat << 'END' ;; esac
debootstrap command debootstrap
lintian command lintian
END
}

# look: sets `missing` to the packages that are missing
look() {
    missing=
    absent=$(needs "$@" | /usr/bin/python3 -c 'import importlib.util, sys
rows = [line.split() for line in sys.stdin]
print(*(name for _, kind, name in rows if kind == "module" and not importlib.util.find_spec(name)))')
    while read -r package kind name; do
        case $kind in
            command) command -v "$name" > /dev/null || missing="$missing $package" ;;
            file) ls $name > /dev/null 2>&1 || missing="$missing $package" ;;
            module) case " $absent " in *" $name "*) missing="$missing $package" ;; esac ;;
        esac
    done << END
$(needs "$@")
END
}

# update: reads the lists of packages anew, and waits where another run does so
update() {
    tries=1
    until apt-get -qq update; do
        [ "$tries" -lt "$most_tries" ] || return 1
        tries=$((tries + 1))
        sleep 2
    done
}

# install: installs what is missing
install() {
    export DEBIAN_FRONTEND=noninteractive
    # shellcheck disable=SC2086
    update && apt-get -qq -y -o DPkg::Lock::Timeout=120 --no-install-recommends install $missing
}

look "$@"
if [ -n "$missing" ] && [ "$(id -u)" = 0 ] && command -v apt-get > /dev/null; then
    echo "$script: installing$missing" >&2
    install > /dev/null || true
    look "$@"
fi
[ -z "$missing" ] || {
    echo "$script: missing; on Debian root installs it by: apt-get install$missing" >&2
    exit 1
}
