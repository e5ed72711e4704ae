#!/bin/sh
# install.sh: `make install` into an empty place. A program that takes its flags from the installed pkg-config file, and nothing from
# this directory but the C library's headers of kit_inc, builds over what stands there, as C and as C++, and runs.
set -eu
cd "$(dirname "$0")/.."
out=$PWD/target/tests/install.d
pc=$out/usr/lib/pkgconfig/ifc.pc
rm -rf "$out"
mkdir -p "$out"

fail() {
    echo "install: $*"
    exit 1
}

# A line of the file, as pkg-config would give it.
line() {
    sed -n "s/^$1: //p" "$pc" | sed "s|\${includedir}|$(variable includedir)|; s|\${libdir}|$(variable libdir)|"
}
variable() {
    sed -n "s/^$1=//p" "$pc" | sed "s|\${prefix}|$(sed -n 's/^prefix=//p' "$pc")|"
}

# install VARIABLE=VALUE..; what `make` made before stays as it is
install() {
    make -s install DIST="$out/dist" "$@" >"$out/log" 2>&1 || { cat "$out/log"; fail "make install failed"; }
}

install DESTDIR= PREFIX="$out/usr"
again=$(make -n install) || fail "make -n install failed"
if echo "$again" | grep -q 'rt lib'; then fail "a second make install proves again"; fi
if command -v pkg-config >/dev/null 2>&1; then
    PKG_CONFIG_PATH=$(dirname "$pc")
    export PKG_CONFIG_PATH
    cflags=$(pkg-config --cflags ifc) libs=$(pkg-config --libs ifc)
else
    cflags=$(line Cflags) libs=$(line Libs)
fi
# hosted, for in a freestanding C++ program main is a function like any other
for language in c c++; do
    program=$out/program-$language
    CFLAGS_X86="-O2 -Wall -Wextra -Werror $cflags -fhosted -x $language" sh tests/cc-x86.sh build "$program" tests/install.c $libs
    sh tests/cc-x86.sh run "$program" || fail "the program as $language ends with $?"
done

# Under DESTDIR the files stand elsewhere, and name the place where they will stand.
install DESTDIR="$out/root" PREFIX=/opt/ifc
for file in include/ifc.h lib/libifc.a; do
    cmp "$out/usr/$file" "$out/root/opt/ifc/$file" || fail "$file differs under DESTDIR"
done
grep -qx 'prefix=/opt/ifc' "$out/root/opt/ifc/lib/pkgconfig/ifc.pc" || fail "the pkg-config file names DESTDIR"
echo "install: ok"
