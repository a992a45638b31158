#!/bin/sh
# Tests of ../staffripple and of make in a checkout of their own, whose rt only takes its time and gives the archives in the folder given:
# what is proved when, two builds at once, interrupted ones, and what is said where the checkout or the machine lacks something.
# Prints `ok NAME` or `not ok NAME: WHY` for each.
set -u
cd "$(dirname "$0")/../.." || exit 1
root=$PWD
archives=$(CDPATH='' cd -- "$1" && pwd) || exit 1
dir=$(mktemp -d) || exit 1
trap 'chmod -R u+w "$dir"; rm -rf "$dir"' EXIT
trap 'exit 130' INT
trap 'exit 143' TERM
chmod 755 "$dir"
unset MAKEFLAGS MFLAGS MAKELEVEL
export CFLAGS=-O0
made_with=$(sed -n 's/^#define STAFFRIPPLE_KIT "\(.*\)".*/\1/p' driver/staffripple.h)
failed=0

# In place of rt: says what it is asked, and fails where it is not alone. `hold` has it take long, `fail` has it fail.
cat > "$dir/rt" <<'RT'
#!/bin/sh
[ "$1" != version ] || { echo 'another kit'; exit; }
here=$(dirname "$0")
crate=$(basename "$PWD")
echo "$* of $crate" >> "$here/asked"
[ ! -e "$here/fail" ] || { seq 1 30; echo 'handler NOT PROVED'; exit 1; }
mkdir "$here/busy" || { echo 'NOT PROVED: not alone'; exit 1; }
trap 'rmdir "$here/busy"; exit 1' TERM
[ ! -e "$here/hold" ] || { : > "$here/held"; sleep 1000 & wait; }
sleep 0.5
mkdir -p out && cp "$here/archives/lib${crate%_c}.a" "out/lib$crate.a"
rmdir "$here/busy"
RT
chmod +x "$dir/rt"
mkdir "$dir/archives"
names=$(sed -n 's/^ARCHIVES := //p' driver/kit.mk)
for name in $names; do
    cp "$archives/lib$name.a" "$dir/archives/" || exit 1
done
export RT="$dir/rt"

# begin: a new checkout, in which nothing is proved or built
begin() {
    cd "$root" || exit 1
    rm -rf "$dir/checkout" "$dir/asked" "$dir/fail" "$dir/hold" "$dir/held"
    mkdir -p "$dir/checkout/driver"
    cp -R staffripple crates.txt examples "$dir/checkout/"
    for file in driver/*; do
        case $file in */build) ;; *) cp -R "$file" "$dir/checkout/driver/" ;; esac
    done
    sed 's/[ :].*//' crates.txt | while read -r crate; do
        mkdir -p "$dir/checkout/crates/$crate/src"
        echo "// $crate" > "$dir/checkout/crates/$crate/src/lib.rt"
    done
    : > "$dir/asked"
    cd "$dir/checkout" || exit 1
}

# run COMMAND..: what it prints and says goes to the files out and err
run() {
    timeout 60 "$@" > "$dir/out" 2> "$dir/err"
    status=$?
}

# judge NAME STATUS [FILE TEXT]..: the status was as wanted, and the texts are what the files hold
judge() {
    name=$1 why=
    [ "$status" -eq "$2" ] || why="exit status $status: $(cat "$dir/err")"
    shift 2
    while [ -z "$why" ] && [ $# -gt 0 ]; do
        [ "$(cat "$dir/$1")" = "$2" ] || why="$1 is: $(cat "$dir/$1")"
        shift 2
    done
    if [ -z "$why" ]; then
        echo "ok $name"
    else
        failed=$((failed + 1))
        printf 'not ok %s: %s\n' "$name" "$why"
    fi
}

c1=$(cat examples/C1.out)
all=$(for name in $names; do sed -nE "s/^($name(_c)?) staticlib:.*/lib of \1/p" crates.txt; done)

# ---- What is proved when ----

begin
run ./staffripple examples/C1.hex
judge 'first run proves' 0 out "$c1" err '' asked "$all"
run ./staffripple examples/C1.hex
judge 'second run proves nothing' 0 out "$c1" err '' asked "$all"
run make -s -C driver all
judge 'make after it proves nothing' 0 out '' err '' asked "$all"
find crates -type f -exec touch {} +
run make -s -C driver all
judge 'newer files that are the same prove nothing' 0 out '' err '' asked "$all"
rm -rf crates/*/out
run ./staffripple examples/C1.hex
judge 'nor does it where what rt keeps is gone' 0 out "$c1" asked "$all"
echo '// more' >> crates/campus/src/lib.rt
run ./staffripple examples/C1.hex
judge 'what has changed is proved, and what rests on it' 0 out "$c1" asked "$all
lib of run_c
lib of text_c"
mkdir -p elsewhere
ln -s ../staffripple elsewhere/link
ln -s link elsewhere/second
cd elsewhere || exit 1
run ./second ../examples/C1.hex
judge 'by links' 0 out "$c1" err ''

# ---- What needs no proof is said before it ----

begin
run ./staffripple --help
grep '^usage: ' "$dir/out" > "$dir/first"
judge 'help before the proof' 0 first 'usage: staffripple [OPTION] [FILE]' err '' asked ''
run ./staffripple none.hex
judge 'no such file, before the proof' 1 out '' err 'staffripple: none.hex: No such file or directory' asked ''
echo '01 0G' > bad.hex
run ./staffripple bad.hex
judge 'a fault in hex text, before the proof' 2 out '' err "bad.hex:1: 'G' is not a hex digit" asked ''
run ./staffripple -- < examples/C1.hex
judge 'standard input, read after the proof' 0 out "$c1" asked "$all"
begin
run ./staffripple --text examples/campus.txt
cp "$dir/out" own.txt
judge 'a text, before the proof' 0 err '' asked ''
run ./staffripple --words < own.txt
tail -n 1 "$dir/out" > "$dir/last"
judge 'standard input behind an option, read after the proof' 0 last 'echo reply heard at 0001, after 4 handlings' asked "$all"

# ---- Two at once ----

begin
./staffripple examples/C1.hex > "$dir/first" 2> "$dir/waited" &
first=$!
run make -s -C driver all
judge 'two builds at once: make' 0 out ''
wait "$first"
status=$?
judge 'two builds at once: the program' 0 first "$c1" asked "$all"
cat "$dir/err" "$dir/waited" > "$dir/said"
judge 'one of them waits' 0 said "staffripple: waiting for another build in $dir/checkout"

# ---- Interrupted ----

# interrupted NAME SIGNAL COMMAND..: the command ends by the signal while it proves, and the proof with it; then it works
interrupted() {
    name=$1 signal=$2
    shift 2
    begin
    : > "$dir/hold"
    "$@" > "$dir/out" 2> "$dir/err" &
    command=$!
    for tenth in $(seq 1 100); do
        [ ! -e "$dir/held" ] || break
        sleep 0.1
    done
    kill -s "$signal" "$command"
    wait "$command"
    ended=$?
    for tenth in 1 2 3 4 5 6 7 8 9 10; do
        [ -e "$dir/busy" ] || break
        sleep 0.1
    done
    status=0
    { [ "$ended" -ne 0 ] && [ "$tenth" -lt 10 ]; } || status=1
    judge "$name" 0
    rm "$dir/hold"
    run ./staffripple examples/C1.hex
    judge "$name, and once more" 0 out "$c1" err ''
}
interrupted 'the program stopped' TERM ./staffripple examples/C1.hex
interrupted 'its terminal gone' HUP ./staffripple examples/C1.hex
interrupted 'make stopped' TERM make -s -C driver all

# ---- What is missing ----

begin
run env RT="$dir/none" ./staffripple examples/C1.hex
judge 'no rt' 1 out '' err "staffripple: $dir/none is missing: the proof needs the Rattle kit, with its rt on the PATH; this was made with $made_with"
run env RT="$dir/none" make -s -C driver all
grep -v '^make' "$dir/err" > "$dir/said"
judge 'no rt for make' 2 said "staffripple: $dir/none is missing: the proof needs the Rattle kit, with its rt on the PATH; this was made with $made_with"
: > "$dir/fail"
run ./staffripple examples/C1.hex
tail -n 1 "$dir/err" > "$dir/last"
grep -c . "$dir/err" > "$dir/lines"
judge 'a proof that fails' 1 out '' last "staffripple: proof or build failed; the lines above end the log, $dir/checkout/driver/build/staffripple.log" lines 21
grep 'made with' "$dir/err" > "$dir/said"
judge 'the other kit is named' 1 said "staffripple: this was made with $made_with, and not with another kit"

# Root may write everywhere, so it looks as somebody else.
as=
[ "$(id -u)" -ne 0 ] || as='setpriv --reuid=65534 --regid=65534 --clear-groups'
begin
run ./staffripple examples/C1.hex
chmod -R a-w .
run $as ./staffripple examples/C1.hex
judge 'built, in a checkout that cannot be written' 0 out "$c1" err ''
chmod -R u+w .
echo '// more' >> crates/campus/src/lib.rt
echo 'an old log' > driver/build/staffripple.log
chmod -R a-w .
run $as ./staffripple examples/C1.hex
judge 'not built, in a checkout that cannot be written' 1 out '' \
    err "staffripple: $dir/checkout cannot be written, and the program in it is not built, or not from these sources"
run $as make -s -C driver all
grep -v '^make' "$dir/err" > "$dir/said"
judge 'make in a checkout that cannot be written' 2 said "staffripple: $dir/checkout cannot be written, so nothing can be proved or built in it"

cd / || exit 1
[ "$failed" -eq 0 ]
