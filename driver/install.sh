#!/bin/sh
# install.sh put|drop: puts what was built into the folders that kit.mk names in the environment, or takes it away again; says each file.
set -eu
cd "$(dirname "$0")"

# put MODE SOURCE PLACE
put() {
    install -D -m "$1" "$2" "$DESTDIR$3"
    echo "$DESTDIR$3"
}

# drop MODE SOURCE PLACE
drop() {
    rm -f "$DESTDIR$3"
    echo "$DESTDIR$3: removed"
}

# filled TEMPLATE PLACE: puts the template with the folders of this installation in it
filled() {
    [ "$verb" = drop ] || sed -e "s|@PREFIX@|$(escaped "$PREFIX")|g" -e "s|@INCLUDEDIR@|$(escaped "$INCLUDEDIR")|g" -e "s|@LIBDIR@|$(escaped "$LIBDIR")|g" \
        -e "s|@VERSION@|$version|g" "$1" > build/filled
    "$verb" 644 build/filled "$2"
}

escaped() {
    printf '%s' "$1" | sed 's/[&|\\]/\\&/g'
}

files() {
    "$verb" 755 build/staffripple "$BINDIR/staffripple"
    "$verb" 755 build/trill-replay "$BINDIR/trill-replay"
    "$verb" 644 man/staffripple.1 "$MANDIR/man1/staffripple.1"
    "$verb" 644 man/trill-replay.1 "$MANDIR/man1/trill-replay.1"
    "$verb" 644 staffripple.h "$INCLUDEDIR/staffripple.h"
    "$verb" 644 build/libstaffripple.a "$LIBDIR/libstaffripple.a"
    filled package/staffripple.pc.in "$LIBDIR/pkgconfig/staffripple.pc"
    filled package/staffripple-config.cmake.in "$LIBDIR/cmake/staffripple/staffripple-config.cmake"
    filled package/staffripple-config-version.cmake.in "$LIBDIR/cmake/staffripple/staffripple-config-version.cmake"
    "$verb" 644 example.c "$DATADIR/staffripple/example.c"
    "$verb" 644 wireshark/staffripple.lua "$DATADIR/staffripple/staffripple.lua"
    for file in Cargo.toml README.md build.rs src/lib.rs; do
        "$verb" 644 "rust/$file" "$DATADIR/staffripple/rust/$file"
    done
    filled package/library.in "$DATADIR/staffripple/rust/library"
}

# Folders that hold nothing else
folders() {
    for folder in "$DATADIR/staffripple/rust/src" "$DATADIR/staffripple/rust" "$DATADIR/staffripple" "$LIBDIR/cmake/staffripple"; do
        rmdir "$DESTDIR$folder" 2> /dev/null || true
    done
}

verb=$1
version=$(sed -n 's/^#define STAFFRIPPLE_VERSION "\(.*\)".*/\1/p' staffripple.h)
case $PREFIX in
/*) ;;
*)
    echo "staffripple: PREFIX=$PREFIX is not an absolute path" >&2
    exit 1
    ;;
esac
mkdir -p build
files
[ "$verb" = put ] || folders
