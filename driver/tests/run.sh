#!/bin/sh
# Runs the driver's tests on what kit.mk has built in the folder given. A test prints `ok NAME` or `not ok NAME: WHY`, or `skipped NAME: WHY`
# where the machine lacks what it needs; the last line counts those of the first two kinds.
set -u
cd "$(dirname "$0")/.." || exit 1
build=$1
log=$build/test.log
: > "$log"
version="$(sed -n 's/^#define STAFFRIPPLE_VERSION "\(.*\)".*/\1/p' staffripple.h) ($(sed -n 's/^#define STAFFRIPPLE_KIT "\(.*\)".*/\1/p' staffripple.h))"

# results NAME COMMAND..: runs a program of many tests, NAME before each; that it ends badly and says nothing of it is a failure
results() {
    name=$1
    shift
    "$@" > "$build/one.log" 2>&1
    status=$?
    sed -n -e "s/^ok /ok $name: /p" -e "s/^not ok /not ok $name: /p" -e "s/^skipped /skipped $name: /p" "$build/one.log" | tee -a "$log"
    if [ "$status" -ne 0 ] && ! grep -q '^not ok ' "$build/one.log"; then
        cat "$build/one.log"
        echo "not ok $name: exit status $status" | tee -a "$log"
    fi
}

# counted NAME COMMAND..: runs a program that counts its tests itself, in a last line `examples: N passed, M failed`
counted() {
    name=$1
    shift
    "$@" > "$build/one.log" 2>&1
    status=$?
    if [ "$status" -eq 0 ]; then
        echo "ok $name: $(tail -n 1 "$build/one.log")"
    else
        echo "not ok $name: $(cat "$build/one.log")"
    fi | tee -a "$log"
}

results 'selftest' "$build/selftest"
results 'selftest sanitized' "$build/sanitized/selftest"
results 'refusals' "$build/refusals"
results 'refusals sanitized' "$build/sanitized/refusals"
results 'text form' "$build/textform"
results 'text form sanitized' "$build/sanitized/textform"
results 'walk' "$build/walk"
results 'walk sanitized' "$build/sanitized/walk"
results 'tools' sh tests/tools.sh "$build/staffripple"
results 'tools sanitized' sh tests/tools.sh "$build/sanitized/staffripple"
results 'replay' sh tests/replay.sh "$build/trill-replay" "$version"
results 'replay sanitized' sh tests/replay.sh "$build/sanitized/trill-replay" "$version"
counted 'staffripple sanitized' sh ../examples/check "$build/sanitized/staffripple"
results 'README.md' sh tests/readme.sh "$build"
results 'dissector' sh tests/dissector.sh "$build"
results 'installed' sh tests/installed.sh "$version"
# A job in the background ignores interrupts and, by nohup, hangups, which these tests send.
results 'checkout' env --default-signal=HUP,INT,TERM sh tests/checkout.sh "$PWD/$build"

failed=$(grep -c '^not ok ' "$log")
echo "driver: $(grep -c '^ok ' "$log") passed, $failed failed"
[ "$failed" -eq 0 ]
