#!/bin/sh
# make_c_library.sh PREFIX: installs the C library into the directory PREFIX: lib/librocktray.so, lib/librocktray.a,
# include/rocktray.h and lib/pkgconfig/rocktray.pc. It prints where the shared library is.
#
# If crates/mail_c/out/libmail_c.a is missing or older than a source, the crate is proved and the archive built first,
# with progress on standard error (docs/CONTRIBUTING.md says how long). With BUILT=only in the environment an archive that
# has to be built is an error. It needs the kit and a C compiler (CC, or cc), and the library needs the C library alone.
# Without the kit the library is that of a release that is unpacked at the top of the checkout.
arguments='PREFIX'
. "$(dirname "$0")/arguments.sh"
. "$here/released.sh"
[ -d "$(dirname "$1")" ] || usage "there is no directory $(dirname "$1")"
if library=$(unpacked lib/librocktray.so); then
    mkdir -p "$1"
    cp -R "$(dirname "$library")" "$(dirname "$library")/../include" "$1"
    echo "$(cd "$1" && pwd)/lib/librocktray.so"
    exit
fi
crate=$top/crates/mail_c
archive=$crate/out/libmail_c.a
compiler=${CC:-cc}
need_kit

# build: proves the crate and builds the archive
build() {
    make_work
    if ! (cd "$crate" && rt lib) > "$work/log" 2>&1; then
        cat "$work/log" >&2
        echo "$script: the archive was not built" >&2
        exit 1
    fi
    touch "$archive"
}

if [ ! -f "$archive" ] || [ -n "$(find "$top"/crates/*/src -name '*.rt' -newer "$archive" -print -quit)" ]; then
    if [ "${BUILT:-}" = only ]; then
        echo "$script: mail_c is not built" >&2
        exit 1
    fi
    echo "$script: proving mail_c" >&2
    build
fi
mkdir -p "$1/include" "$1/lib/pkgconfig"
prefix=$(cd "$1" && pwd)
library=$prefix/lib/librocktray.so
kit=$(dirname "$(rt doc)")
make_work
cat > "$work/exports" << 'END'
{ global: rocktray_*; local: *; };
END
"$compiler" -shared -o "$library.0" -Wl,-soname,librocktray.so.0 -Wl,--version-script="$work/exports" \
    -Wl,-z,relro,-z,now,-z,noexecstack -Wl,--no-undefined \
    -Wl,--whole-archive "$archive" -Wl,--no-whole-archive "$kit/c/liblibc_c.a"
ln -sf librocktray.so.0 "$library"
# the static library is one object, of which nothing but the calls can be seen
"$compiler" -r -nostdlib -o "$work/rocktray.o" -Wl,--whole-archive "$archive" -Wl,--no-whole-archive "$kit/c/liblibc_c.a"
objcopy --wildcard --keep-global-symbol='rocktray_*' "$work/rocktray.o"
rm -f "$prefix/lib/librocktray.a"
ar rcsD "$prefix/lib/librocktray.a" "$work/rocktray.o"
sed -e "s/@VERSION@/$(version)/" -e "s/@VERSION_NUMBER@/$(version VERSION_NUMBER)/" \
    "$top/c/rocktray.h" > "$prefix/include/rocktray.h"
cat > "$prefix/lib/pkgconfig/rocktray.pc" << END
prefix=\${pcfiledir}/../..
libdir=\${prefix}/lib
includedir=\${prefix}/include

Name: rocktray
Description: Reads mail, proved
Version: $(version)
Libs: -L\${libdir} -lrocktray
Cflags: -I\${includedir}
END
echo "$library"
