#!/bin/sh
# Tests of an installation of what kit.mk has built, of the version given: as a user of C, C++, pkg-config, CMake and
# cargo finds it, and that nothing of it is left once it is taken away. Prints `ok NAME` or `not ok NAME: WHY` for each.
set -u
cd "$(dirname "$0")/.." || exit 1
root=$PWD
version=$1
CC=${CC:-cc}
CXX=${CXX:-c++}
strict='-Wall -Wextra -Werror -Wconversion -Wshadow -pedantic'
dir=$(mktemp -d) || exit 1
trap 'rm -rf "$dir"' EXIT
unset MAKEFLAGS MFLAGS MAKELEVEL STAFFRIPPLE_LIB
prefix="$dir/a prefix & more"
failed=0

# prints NAME TEXT COMMAND..: one test, that a command ends well and prints just TEXT
prints() {
    name=$1 expected=$2
    shift 2
    if got=$("$@" 2>&1) && [ "$got" = "$expected" ]; then
        echo "ok $name"
    else
        failed=$((failed + 1))
        echo "not ok $name: $got"
    fi
}

# having COMMAND: whether there is such a command; what needs it is not tested without
having() {
    command -v "$1" > /dev/null
}

# block LANGUAGE FILE: the first block of that language in a document
block() {
    awk -v opening="\`\`\`$1" '$0 == opening && !seen { on = seen = 1; next } $0 == "```" { on = 0 } on' "$2"
}

kit() {
    make -s -f kit.mk "$@" | sort
}

# files FOLDER: all in it
files() {
    find "$1" ! -type d | sort
}

kit install PREFIX="$prefix" DESTDIR= > "$dir/said"
prints 'install' "$(cat "$dir/said")" files "$prefix"
cd "$dir" || exit 1

# ---- The programs and their manuals ----

prints 'the program' "$(cat "$root/../examples/C1.out")" "$prefix/bin/staffripple" "$root/../examples/C1.hex"
prints 'its version' "staffripple $version" "$prefix/bin/staffripple" --version
prints 'the replay tool' "trill-replay $version" "$prefix/bin/trill-replay" --version

# options FILE: the options that a help or a manual names
options() {
    sed 's/\\//g' "$1" | grep -oE -e '--[a-z]+' | sort -u
}
# statuses FILE: the statuses that a help or a manual names at its end, in a row
statuses() {
    sed -n '/^Exit status/,$p; /^.SH EXIT STATUS/,/^.SH EXAMPLE/s/^.B/ /p' "$1" | tr '\n' ' ' | grep -oE ' [0-3] ' | tr -dc 0-3
}
for program in staffripple trill-replay; do
    "$prefix/bin/$program" --help > help
    cp "$prefix/share/man/man1/$program.1" manual
    prints "$program: options of the manual" "$(options help)" options manual
    prints "$program: statuses of the help" 0123 statuses help
    prints "$program: statuses of the manual" 0123 statuses manual
    if having groff; then
        prints "$program: manual without warnings" '' sh -c 'groff -t -man -ww -Tutf8 manual > page'
    fi
done

# The dissector, where the manual says that it is
prints 'the dissector' "$(cat "$root/wireshark/staffripple.lua")" cat "$prefix/share/staffripple/staffripple.lua"

# The description that README.md shows, with what it says of it
sed -n '/^A description is hex text/,/^`/s/^    //p' "$root/../README.md" > own.hex
prints 'the description of README.md' '0001 O 50 05 0003
0002 O 21 04 0003
handled 2' "$prefix/bin/staffripple" own.hex
sed -i.kept s/0016/0026/ own.hex
prints 'and its slip' "refused 41
$(sed -n 's/^    \(own.hex:.*\)/\1/p' "$root/../README.md")" sh -c '"$1" own.hex || true' sh "$prefix/bin/staffripple"

# ---- The library ----

# needed LIBRARY: the names that it takes from outside, as staffripple.h lists them
needed() {
    nm -u "$1" | awk 'NF == 2 { print $2 }' | sort -u | tr '\n' ' '
}
prints 'what it needs' 'memcpy memset ' needed "$prefix/lib/libstaffripple.a"

# example COMMAND..: compiles and runs the example as a user does
example() {
    rm -f example && "$@" -o example && ./example
}
said='50 forwarded, 20 octets written'
installed="$prefix/share/staffripple/example.c"
prints 'C11' "$said" example $CC -std=c11 $strict "$installed" -I "$prefix/include" -L "$prefix/lib" -lstaffripple
prints 'C++17' "$said" example $CXX -std=c++17 $strict -I "$prefix/include" -x c++ "$installed" -x none -L "$prefix/lib" -lstaffripple
prints 'the example of README.md' "$(sed 1d "$root/example.c")" block c "$root/../README.md"
if having pkg-config; then
    found() {
        eval "example $CC \"\$installed\" $(PKG_CONFIG_PATH="$prefix/lib/pkgconfig" pkg-config --cflags --libs staffripple)"
    }
    prints 'pkg-config' "$said" found
    prints 'pkg-config, version' "${version%% *}" env PKG_CONFIG_PATH="$prefix/lib/pkgconfig" pkg-config --modversion staffripple
fi
if having cmake; then
    mkdir cmake
    cp "$installed" cmake/
    block cmake "$root/../README.md" > cmake/CMakeLists.txt
    cmake_example() {
        cmake -S cmake -B cmake/build -DCMAKE_PREFIX_PATH="$prefix" > cmake.log 2>&1 && cmake --build cmake/build >> cmake.log 2>&1 || {
            cat cmake.log
            return 1
        }
        cmake/build/example
    }
    prints 'CMake' "$said" cmake_example
fi
if having cargo; then
    new_project() {
        cargo new --quiet --vcs none probe && cd probe && cargo add --quiet --offline --path "$prefix/share/staffripple/rust" &&
            block rust "$root/../README.md" > src/main.rs && cargo run --quiet --offline
    }
    prints 'a new cargo project' "$said" new_project
    prints 'the example of the crate' "$(block rust "$root/rust/README.md")" block rust "$root/../README.md"
fi

# ---- Taken away again ----

cd "$root" || exit 1
prints 'not an absolute prefix' 'staffripple: PREFIX=here is not an absolute path' sh -c 'PREFIX=here sh install.sh put || true'
kit install PREFIX=/usr/local DESTDIR="$dir/stage" > "$dir/staged"
prints 'install on a stage' "$(cat "$dir/staged")" files "$dir/stage"
prints 'the stage is not named' '' sh -c '! grep -rlF "$1" "$1/usr/local/lib/pkgconfig" "$1/usr/local/lib/cmake" "$1/usr/local/share"' sh "$dir/stage"
prints 'uninstall' "$(sed 's/$/: removed/' "$dir/said")" kit uninstall PREFIX="$prefix" DESTDIR=
prints 'nothing is left' '' find "$prefix" ! -type d -o -name staffripple
[ "$failed" -eq 0 ]
