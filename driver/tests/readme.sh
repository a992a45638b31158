#!/bin/sh
# Tests of what README.md shows: each command of a block `console` is run with the programs in the folder given, and prints what stands
# below it; each block `text` is a file of examples/. Prints `ok NAME` or `not ok NAME: WHY` for each, or `skipped NAME: WHY`.
set -u
cd "$(dirname "$0")/.." || exit 1
root=$PWD
PATH=$(CDPATH='' cd -- "$1" && pwd):$PATH || exit 1
export PATH
dir=$(mktemp -d) || exit 1
trap 'rm -rf "$dir"' EXIT
mkdir "$dir/try" "$dir/steps"
cp ../examples/* wireshark/staffripple.lua "$dir/try/"
cd "$dir/try" || exit 1
failed=0

# verdict NAME STATUS WHY
verdict() {
    if [ "$2" -eq 0 ]; then
        printf 'ok %s\n' "$1"
    else
        failed=$((failed + 1))
        printf 'not ok %s: %s\n' "$1" "$3"
    fi
}

# Puts each command into a file of its own, and the lines below it into another.
awk -v steps="$dir/steps" '
    $0 == "```console" { on = 1; next }
    /^```/ { on = 0 }
    on && /^\$ / { file = sprintf("%s/%03d", steps, ++count); print substr($0, 3) > (file ".command"); printf "" > (file ".printed"); next }
    on { print > (file ".printed") }' "$root/../README.md"

# steady: what differs from run to run and from user to user, taken out
steady() {
    sed -e 's/^ *[0-9]*\(  frames per second, in \)[0-9.]* s$/N\1T/' -e '/^Running as user "root" and group "root"/d' -e '/^$/d'
}

for command in "$dir"/steps/*.command; do
    name=$(cat "$command")
    case $name in
    tshark*) command -v tshark > /dev/null || { printf 'skipped %s: tshark is not installed\n' "$name"; continue; } ;;
    esac
    sh "$command" 2>&1 | steady > "$dir/got"
    steady < "${command%.command}.printed" > "$dir/expected"
    verdict "$name" "$(cmp -s "$dir/got" "$dir/expected"; echo $?)" "$(cat "$dir/got")"
done
[ "$(find "$dir/steps" -name '*.command' | wc -l)" -ge 12 ]
verdict 'as many commands as there should be' $? "$(ls "$dir/steps")"

# The files shown, in their order
awk '$0 == "```text" { on = 1; next } $0 == "```" { on = 0 } on' "$root/../README.md" > "$dir/shown"
cat campus.txt switch.txt | cmp -s - "$dir/shown"
verdict 'the files shown' $? "$(cat "$dir/shown")"
[ "$failed" -eq 0 ]
