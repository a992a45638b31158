#!/bin/sh
# Tests of the Wireshark dissector by tshark, on captures that the programs in the folder given write, and on frames cut short.
# Prints `ok NAME` or `not ok NAME: WHY` for each, or `skipped NAME: WHY`.
set -u
cd "$(dirname "$0")/.." || exit 1
dissector=$PWD/wireshark/staffripple.lua
examples=$PWD/../examples
PATH=$(CDPATH='' cd -- "$1" && pwd):$PATH || exit 1
dir=$(mktemp -d) || exit 1
trap 'rm -rf "$dir"' EXIT
cd "$dir" || exit 1
failed=0

if ! command -v tshark > /dev/null; then
    echo 'skipped the dissector: tshark is not installed'
    exit 0
fi

# shows NAME FILE FIELDS TEXT: the fields of each frame, blanks between them
preferences=
shows() {
    words=$(for field in $3; do printf ' -e %s' "$field"; done)
    # shellcheck disable=SC2086 # the fields are words of their own
    got=$(tshark $preferences -X lua_script:"$dissector" -r "$2" -T fields -E separator=/s $words 2> said | sed 's/ *$//')
    if [ "$got" = "$4" ]; then
        printf 'ok %s\n' "$1"
    else
        failed=$((failed + 1))
        printf 'not ok %s: %s\n' "$1" "$got $(cat said)"
    fi
}

staffripple --pcap "$examples/campus.txt" > run.pcap
shows 'the options of a run' run.pcap 'trill_options.word trill_options.option.type trill_options.option.length trill_options.option.data' \
    '0x00000000 0x0001,0x0005 2,3 0007,aabbcc
0x00000000 0x0001 2 0007'
shows 'the bits of its options' run.pcap 'trill_options.option.ie trill_options.option.nc trill_options.option.mt' '0,0 1,1 1,1
0 1 1'
shows 'its channel header' run.pcap \
    'trill_channel.chv trill_channel.protocol trill_channel.flags.sl trill_channel.flags.mh trill_channel.flags.na trill_channel.err' \
    '0 0x0ff8 0 1 0 0
0 0x0ff8 0 1 0 0
0 0x0ff8 1 1 0 0
0 0x0ff8 1 1 0 0'
shows 'its echo bodies' run.pcap \
    'trill_channel.echo.spid trill_channel.echo.sequence trill_channel.echo.reply_mode trill_channel.echo.time_sent trill_channel.echo.time_received trill_channel.echo.difference' \
    '3 1 2 1.000002 0.000000
3 1 2 1.000002 0.000000
4 1 2 1.000002 1.000009 7
4 1 2 1.000002 1.000009 7'
staffripple --pcap "$examples/alerted-ping.hex" > ping.pcap
preferences='-o trill_options.edition:2'
shows 'the extended flags of a run' ping.pcap \
    'trill_options.flags trill_options.flags.crhbh trill_options.flags.crcaf trill_options.flags.nccaf trill_options.word trill_channel.echo.spid' \
    "$(printf '0x81000000 1 1 0  3\n%.0s' 1 2 3 4; printf '     4\n%.0s' 1 2 3 4 5 6 7 8 9 10)"
cat > flags.txt <<TEXT
switch 0001 mac 02:00:00:00:00:01 edition 2
frame at 0001 hex 020000000001 020000000009 22F3 00C5 0001 0009 FEDCBA9B 01020304 05060708
TEXT
staffripple --pcap flags.txt > flags.pcap
shows 'each kind of flag' flags.pcap \
    'trill_options.flags.crite trill_options.flags.crrsv trill_options.flags.chbh trill_options.flags.nchbh trill_options.flags.crsv trill_options.flags.ncrsv trill_options.flags.cite trill_options.flags.ncite trill_options.extensions' \
    '1 1 0x0000000f 0x00000017 0x00000001 0x00000007 0x00000014 0x0000001b 0102030405060708'
preferences=
shows 'the same area as options' flags.pcap 'trill_options.word trill_options.option.type' '0xfedcba9b 0x0001,0x0005'
staffripple --pcap "$examples/leased-links.hex" > leased.pcap
shows 'a run over outer VLANs' leased.pcap 'vlan.id trill.hop_cnt trill_channel.echo.spid' '5,1 5 3
4094,1 4 3
4094,1 63 4
5,1 62 4'
trill-replay -c 16777215.999999 "$examples/switch.txt" run.pcap sent.pcap > said
shows 'what the replay tool sends' sent.pcap 'trill.hop_cnt trill_options.option.length trill_channel.echo.sequence' '4 2 1
62  1'

# difference NAME SENT CLOCK MICROSECONDS: an echo request sent then, answered with that clock
difference() {
    cat > request.txt <<TEXT
switch 0001 mac 02:00:00:00:00:01
to 0009 via 0009 mac 02:00:00:00:00:09 serial 1
clock $3
frame at 0001 hex 020000000001 020000000009 22F3 0005 0001 0009 0180C2000042 020000000009 8100 0001 8946 0FF8 4000
  30000001 02 00 $2 000000000000
TEXT
    staffripple --pcap request.txt > request.pcap
    shows "$1" request.pcap 'trill_channel.echo.spid trill_channel.echo.difference' "3
4 $4"
}
difference 'a difference of nothing' 000005000005 5.000005 0
difference 'a difference below zero' 000005000005 4.999999 -6
difference 'a difference over the end of the seconds' FFFFFF0F423F 0.000001 2
difference 'the greatest difference' 000000000000 8388607.0 8388607000000
difference 'the least difference' 800000000000 0.0 -8388608000000

cat > error.txt <<TEXT
switch 0001 mac 02:00:00:00:00:01
to 0009 via 0009 mac 02:00:00:00:00:09 serial 1
frame at 0001 hex 020000000001 020000000009 22F3 0085 0001 0009 00000000 41820007
  0180C2000042 020000000009 8100 0001 8946 0123 4000 $(printf '%0300d' 0)
TEXT
staffripple --pcap error.txt > error.pcap
shows 'an error, and the frame at fault in it' error.pcap \
    'trill_channel.protocol trill_channel.err trill.egress_nick trill_options.option.type eth.src' \
    '0x0123 0 1 0x0001 02:00:00:00:00:09,02:00:00:00:00:09
0x0001,0x0123 5,0 9,1 0x0001 02:00:00:00:00:01,02:00:00:00:00:01,02:00:00:00:00:09'

# The frames of the captures cut at every third octet: what is there is shown, and no dissector ends in an error of its own.
cut=0
for file in run.pcap error.pcap; do
    for snap in $(seq 14 3 170); do
        cut=$((cut + 1))
        editcap -s "$snap" "$file" "cut-$cut.pcap" 2> said || cp "$file" "cut-$cut.pcap"
    done
done
mergecap -F pcap -a -w cut.pcap cut-*.pcap
tshark -X lua_script:"$dissector" -r cut.pcap -V > shown 2> said
status=$?
if [ "$status" -eq 0 ] && ! grep -qi 'lua error' shown said && grep -q 'The message is cut short' shown; then
    echo 'ok cut frames'
else
    failed=$((failed + 1))
    echo "not ok cut frames: $status $(grep -i -m 1 'lua error' shown said)"
fi
[ "$failed" -eq 0 ]
