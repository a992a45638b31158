#!/bin/sh
# Tests of the replay tool given, of the version given: captures are made from hex text and its output is compared octet by octet.
# Prints `ok NAME` or `not ok NAME: WHY` for each.
set -u
tool=$(cd "$(dirname "$1")" && pwd)/$(basename "$1")
version=$2
dir=$(mktemp -d) || exit 1
trap 'rm -rf "$dir"' EXIT
cd "$dir" || exit 1
failed=0

# ---- Octets from hex text and back ----

octets() { printf "$(printf '\\%03o' $(printf '%s' "$*" | tr -d ' \n' | sed 's/../0x& /g'))"; }
hex() { od -An -v -tx1 "$1" | tr -d ' \n'; }

# u32 NUMBER: in the byte order in $order, be or le
u32() {
    case $order in
    be) printf '%08x' "$1" ;;
    le) printf '%08x' "$1" | sed 's/\(..\)\(..\)\(..\)\(..\)/\4\3\2\1/' ;;
    esac
}

# header SNAPLEN [LINKTYPE]: a file header with the magic number in $magic, zone 0 and accuracy 0
header() {
    u32 "0x$magic"
    case $order in be) printf 00020004 ;; le) printf 02000400 ;; esac
    u32 0
    u32 0
    u32 "$1"
    u32 "${2:-1}"
}

# record SECONDS FRACTION FRAME [ORIGINAL-LENGTH]
record() {
    frame=$(printf '%s' "$3" | tr -d ' ' | tr A-F a-f)
    length=$((${#frame} / 2))
    u32 "$1"
    u32 "$2"
    u32 "$length"
    u32 "${4:-$length}"
    printf '%s' "$frame"
}

# ---- Running and judging ----

# steady: takes the line that differs from run to run, that of the frames per second, out of what the tool has said
steady() {
    for file in said complained; do
        sed '/^ *[0-9]*  frames per second, in [0-9.]* s$/d' "$file" > steady && cat steady > "$file"
    done
}

# run STATUS WORDS..: runs the tool; what it says goes to the files said and complained
run() {
    wanted=$1
    shift
    "$tool" "$@" > said 2> complained
    status=$?
    steady
}

# judge NAME [OUTPUT TEXT]..: the status was as wanted, and the texts are what OUTPUT holds
judge() {
    name=$1 why=
    shift
    [ "$status" -eq "$wanted" ] || why="exit status $status: $(cat complained)"
    while [ -z "$why" ] && [ $# -gt 0 ]; do
        case $1 in
        *.pcap) got=$(hex "$1") ;;
        *) got=$(cat "$1") ;;
        esac
        [ "$got" = "$2" ] || why="$1 is: $got"
        shift 2
    done
    if [ -z "$why" ]; then
        echo "ok $name"
    else
        failed=$((failed + 1))
        printf 'not ok %s: %s\n' "$name" "$why"
    fi
}

# ---- Switch 0x0001, which reaches 0x0009 over 0x0005, and frames for C2 to C9 and C12 of document 01 ----

switch='01 0008 0001 020000000001'
hop='02 000E 0009 0005 020000000005 00000001'
octets "$switch $hop 03 0001 01" > strip
cat > strip.txt <<TEXT
# a switch
$switch
$hop	# its next hop
03 00 01
  01
TEXT
octets "$switch 02 000E 0009 0007 020000000007 00000007 02 000E 0009 0000 020000000008 00000008" > withdrawn

received='020000000001 020000000002 22F3'
sent='020000000005 020000000001 22F3'
inner='020000000077 020000000088 8100 0005 0800 4500'
zeros=$(printf '%0236d' 0)
to_us='0001 0004'
c2="$received 0000 $to_us $inner"
c3="$received 0001 $to_us $inner"
c4="$received 07C5 $to_us 00000000 45F6 $zeros $inner"
c5="$received 07C5 $to_us 00000000 45F7 $zeros $inner"
c6="$received 0105 $to_us 00000000 4587AAAA AAAAAAAA AA000000 $inner"
c7="$received 0105 0009 0004 00000000 41820007 4583AABB CC000000 $inner"
c7_sent="$sent 0084 0009 0004 00000000 41820007 $inner"
c8="$received 00C5 $to_us 00000000 41820007 41820008 $inner"
c9="$received 0005 $to_us 020000000077 020000000088 8100 0FFF 0800 4500"
transit="$received 0001 0009 0004 $inner"
transit_sent="$sent 0000 0009 0004 $inner"
channel="$received 0005 0001 0009 0180C2000042 020000000009 8100 0001 8946"
reply="$sent 003F 0009 0001 0180C2000042 020000000001 8100 0001 8946"
echo_asked="$channel 0FF8 4000 30000001 02 00 000001000002 000000000000"
echo_sent="$reply 0FF8 C000 40000001 02 00 000001000002"

cases() {
    number=0
    for frame in "$c2" "$c3" "$c4" "$c5" "$c6" "$c7" "$c8" "$c9" "$transit"; do
        number=$((number + 1))
        record $((1700000000 + number)) $((number * $1)) "$frame"
    done
}

summary='    frames
         9  read
         9  handled, by answer:
         1    17 hop count 0
         1    23 inner tag type not 0x8100, or VLAN 0 or 4,095
         1    30 option with a reserved Length
         1    33 option key equal to the one before
         2    50 forwarded
         3    51 delivered
         2  written, 88 octets'

# format NAME MAGIC ORDER UNIT: the cases in that format; UNIT sets the fractions of the time stamps
format() {
    magic=$2 order=$3
    octets "$(header 65535; cases "$4")" > "in-$1.pcap"
    expected=$(header 2048; record 1700000006 $((6 * $4)) "$c7_sent"; record 1700000009 $((9 * $4)) "$transit_sent")
    run 0 strip "in-$1.pcap" out.pcap
    judge "C2 to C9, $1" out.pcap "$expected" said "$summary" complained ''
}
format nano-be a1b23c4d be 111111111
format nano-le a1b23c4d le 111111111
format micro-be a1b2c3d4 be 111111
format micro-le a1b2c3d4 le 111111

# From here on microseconds, little-endian.
run 0 strip.txt in-micro-le.pcap text.pcap
judge 'settings in hex text' text.pcap "$expected" said "$summary"
octets "$switch 02 0010 0009 0005 020000000005 00000001 0FFE" > tagged
octets "$(header 65535; record 1 2 "$transit"; record 1 3 "$echo_asked")" > untagged.pcap
tag="020000000005 020000000001 8100 0FFE 22F3"
run 0 -c 000001000009 tagged untagged.pcap tagged.pcap
judge 'an outer VLAN, forwarded and in a reply' tagged.pcap "$(header 2048; record 1 2 "$tag ${transit_sent#"$sent"}"
    record 1 3 "$tag ${echo_sent#"$sent"} 000001000009")" complained ''
cat > form.txt <<TEXT
# a switch
switch 0001 mac 02:00:00:00:00:01 strip
  to 0009 via 0005 mac 02-00-00-00-00-05 serial 1
TEXT
run 0 form.txt in-micro-le.pcap text.pcap
judge 'settings in the text form' text.pcap "$expected" said "$summary"
run 0 -v withdrawn in-micro-le.pcap none.pcap
judge 'C12, and -v' none.pcap "$(header 2048)" said "1 1700000001.111111 40 octets: 17 hop count 0; hop count 0, egress 0001, ingress 0004
2 1700000002.222222 40 octets: 51 delivered; hop count 1, egress 0001, ingress 0004; part at octet 20, 20 octets
3 1700000003.333333 164 octets: 51 delivered; hop count 5, egress 0001, ingress 0004; part at octet 144, 20 octets
4 1700000004.444444 164 octets: 30 option with a reserved Length; hop count 5, egress 0001, ingress 0004
5 1700000005.555555 56 octets: 51 delivered; hop count 5, egress 0001, ingress 0004; part at octet 36, 20 octets
6 1700000006.666666 56 octets: 21 not the egress and no next hop; hop count 5, egress 0009, ingress 0004
7 1700000007.777777 52 octets: 33 option key equal to the one before; hop count 5, egress 0001, ingress 0004
8 1700000008.888888 40 octets: 23 inner tag type not 0x8100, or VLAN 0 or 4,095; hop count 5, egress 0001, ingress 0004
9 1700000009.999999 40 octets: 21 not the egress and no next hop; hop count 1, egress 0009, ingress 0004
    frames
         9  read
         9  handled, by answer:
         1    17 hop count 0
         2    21 not the egress and no next hop
         1    23 inner tag type not 0x8100, or VLAN 0 or 4,095
         1    30 option with a reserved Length
         1    33 option key equal to the one before
         3    51 delivered
         0  written, 0 octets"

octets "$(header 65535; record 7 8 "$echo_asked")" > echo.pcap
run 0 -c 0000010000aF strip echo.pcap out.pcap
judge 'the clock' out.pcap "$(header 2048; record 7 8 "$echo_sent 0000010000AF")"
run 0 -c 1.000175 strip echo.pcap out.pcap
judge 'the clock in seconds' out.pcap "$(header 2048; record 7 8 "$echo_sent 0000010000AF")"
run 0 -c stamp strip echo.pcap out.pcap
judge 'the clock from a time stamp' out.pcap "$(header 2048; record 7 8 "$echo_sent 000007000008")"
octets "$(header 65535; record 0xFF000007 4294967295 "$echo_asked")" > late.pcap
run 0 -c stamp strip late.pcap out.pcap
judge 'a time stamp with many seconds, and more of them in its fraction' \
    out.pcap "$(header 2048; record 0xFF000007 4294967295 "$echo_sent 0010CD0EC27F")"
magic=a1b23c4d
octets "$(header 65535; record 7 8000 "$echo_asked")" > nano.pcap
run 0 -c stamp strip nano.pcap out.pcap
judge 'the clock from a time stamp in nanoseconds' out.pcap "$(header 2048; record 7 8000 "$echo_sent 000007000008")"
magic=a1b2c3d4
run 0 strip echo.pcap out.pcap
judge 'no clock' out.pcap "$(header 2048; record 7 8 "$echo_sent 000000000000")"

run 0 strip - out.pcap < in-micro-le.pcap
judge 'standard input' out.pcap "$expected" said "$summary"
"$tool" strip in-micro-le.pcap - > out.pcap 2> complained
status=$? wanted=0
: > said
steady
judge 'standard output' out.pcap "$expected" complained "$summary"

# ---- Delivered frames, JSON, and what is written at once ----

run 0 -d inner.pcap strip in-micro-le.pcap out.pcap
judge 'delivered frames' out.pcap "$expected" said "$summary
         3  delivered, 60 octets" inner.pcap "$(header 2048; record 1700000002 222222 "$inner"; record 1700000003 333333 "$inner"; record 1700000005 555555 "$inner")"
"$tool" -d - strip in-micro-le.pcap out.pcap > delivered.pcap 2> complained
status=$?
: > said
steady
judge 'delivered frames to standard output' out.pcap "$expected" delivered.pcap "$(hex inner.pcap)" complained "$summary
         3  delivered, 60 octets"

octets "$(header 65535; record 1 2 "$transit" 41; record 3 4 "$c3"; record 5 6 "$transit"; record 7 8 00)" > json.pcap
run 0 -v --json -d inner.pcap strip json.pcap out.pcap
sed 's/"seconds": [0-9.]*, "frames_per_second": [0-9]*/TIME/' said > json
judge 'as JSON' complained '' json '{"frame": 1, "time": "1.000002", "octets": 41, "snapped": 40}
{"frame": 2, "time": "3.000004", "octets": 40, "answer": 51, "meaning": "delivered", "hop_count": 1, "egress": "0001", "ingress": "0004", "written": 0, "beside": 0, "start": 20, "length": 20}
{"frame": 3, "time": "5.000006", "octets": 40, "answer": 50, "meaning": "forwarded", "hop_count": 1, "egress": "0009", "ingress": "0004", "written": 40, "beside": 0, "start": 0, "length": 0}
{"frame": 4, "time": "7.000008", "octets": 1, "answer": 10, "meaning": "link header or TRILL header cut short", "written": 0, "beside": 0, "start": 0, "length": 0}
{"read": 4, "fcs": 0, "snapped": 1, "handled": 3, "answers": [{"answer": 10, "meaning": "link header or TRILL header cut short", "frames": 1}, {"answer": 50, "meaning": "forwarded", "frames": 1}, {"answer": 51, "meaning": "delivered", "frames": 1}], "written": {"frames": 1, "octets": 40}, "delivered": {"frames": 1, "octets": 20}, TIME}'
"$tool" --json strip json.pcap out.pcap | grep -cE ', "seconds": [0-9]+\.[0-9]{6}, "frames_per_second": [0-9]+}$' > said
judge 'frames per second as JSON' said 1
"$tool" strip json.pcap out.pcap | grep -cE '^ *[0-9]+  frames per second, in [0-9]+\.[0-9]{3} s$' > said
judge 'frames per second' said 1

# While its input has not ended, each frame is in the captures and each line is said.
# unbuffered OPTION..: the octets of both captures and the lines, as long as the input is open
unbuffered() {
    mkfifo pipe
    "$tool" -v -d inner.pcap "$@" strip - out.pcap < pipe > said 2> complained &
    tool_id=$!
    exec 3> pipe
    octets "$(header 65535; record 3 4 "$c3"; record 5 6 "$transit")" >&3
    tenth=0
    while [ "$tenth" -lt "$patience" ] && [ "$(wc -l < said)" -lt 2 ]; do
        sleep 0.1
        tenth=$((tenth + 1))
    done
    wc -l < said | tr -d ' ' > lines
    cp out.pcap out-then.pcap
    cp inner.pcap inner-then.pcap
    exec 3>&-
    wait "$tool_id"
    status=$?
    rm pipe
}
patience=50
unbuffered -u
judge 'unbuffered' lines 2 out-then.pcap "$(header 2048; record 5 6 "$transit_sent")" inner-then.pcap "$(header 2048; record 3 4 "$inner")"
patience=3
unbuffered
judge 'buffered' lines 0 out-then.pcap "$(header 2048)" inner-then.pcap "$(header 2048)" out.pcap "$(header 2048; record 5 6 "$transit_sent")"

# A reply beside a forwarded frame goes into the capture after it, with the same time stamp.
printf 'switch 0001 mac 02:00:00:00:00:01 edition 2\nto 0009 via 0005 mac 02:00:00:00:00:05 serial 1\nto 0004 via 0006 mac 02:00:00:00:00:06 serial 1\n' > flags
asked='0009 0004 81000000 0180C2000042 020000000004 8100 0001 8946 0FF8 4000 30000001 02 00 000001000002 000000000000'
octets "$(header 65535; record 1 2 "020000000001 020000000002 22F3 0045 $asked"; record 3 4 "$transit")" > alerted.pcap
run 0 -v -c 1.000009 flags alerted.pcap out.pcap
judge 'a reply beside a forwarded frame' out.pcap "$(header 2048; record 1 2 "020000000005 020000000001 22F3 0044 $asked"
    record 1 2 "020000000006 020000000001 22F3 003F 0004 0001 0180C2000042 020000000001 8100 0001 8946 0FF8 C000 40000001 02 00 000001000002 000001000009"
    record 3 4 "$transit_sent")" said '1 1.000002 64 octets: 50 forwarded; hop count 5, egress 0009, ingress 0004; 64 octets written; reply of 60 octets beside
2 3.000004 40 octets: 50 forwarded; hop count 1, egress 0009, ingress 0004; 40 octets written
    frames
         2  read
         2  handled, by answer:
         2    50 forwarded
         3  written, 164 octets'

octets "$(header 65535; record 1 2 ''; record 3 4 "$received 0005"; record 5 6 "$(printf '%04098d' 0)")" > odd.pcap
run 0 -v strip odd.pcap out.pcap
judge 'frames without a TRILL header' said '1 1.000002 0 octets: 10 link header or TRILL header cut short
2 3.000004 16 octets: 10 link header or TRILL header cut short
3 5.000006 2049 octets: 3 frame over 2,048 octets
    frames
         3  read
         3  handled, by answer:
         1     3 frame over 2,048 octets
         2    10 link header or TRILL header cut short
         0  written, 0 octets'

octets "$(header 40; record 1 2 "$transit" 41; record 3 4 "$transit")" > snapped.pcap
run 0 -v strip snapped.pcap out.pcap
judge 'a snapped frame' out.pcap "$(header 2048; record 3 4 "$transit_sent")" said '1 1.000002 41 octets: snapped at 40, not handled
2 3.000004 40 octets: 50 forwarded; hop count 1, egress 0009, ingress 0004; 40 octets written
    frames
         2  read
         1  snapped: captured in part only, so not handled
         1  handled, by answer:
         1    50 forwarded
         1  written, 40 octets'

octets "$(header 65535 0x24000001; record 1 2 "$transit DEADBEEF"; record 3 4 "$transit" 44; record 5 6 "$transit" 45; record 7 8 AABBCC)" > fcs.pcap
run 0 strip fcs.pcap out.pcap
judge 'frames with FCS' out.pcap "$(header 2048; record 1 2 "$transit_sent"; record 3 4 "$transit_sent")" said '    frames
         4  read
            (each without its FCS of 4 octets)
         1  snapped: captured in part only, so not handled
         3  handled, by answer:
         1    10 link header or TRILL header cut short
         2    50 forwarded
         2  written, 80 octets'
octets "$(header 65535 0x50000001; record 1 2 "$transit")" > reserved.pcap
run 0 strip reserved.pcap out.pcap
judge 'FCS bits that are not in force' out.pcap "$(header 2048; record 1 2 "$transit_sent")"

# ---- Damaged captures: what was done is kept ----

# damaged NAME WHERE OCTETS: a good record, then the octets; WHERE is the end of the message
damaged() {
    octets "$(header 65535; record 3 4 "$transit")$3" > "$1.pcap"
    run 1 strip "$1.pcap" out.pcap
    judge "damaged, $1" out.pcap "$(header 2048; record 3 4 "$transit_sent")" \
        complained "trill-replay: $1.pcap: record 2 at offset 80: $2" said '    frames
         1  read
         1  handled, by answer:
         1    50 forwarded
         1  written, 40 octets'
}
damaged header-cut 'record header cut short, 7 of 16 octets' 01000000020000
damaged frame-cut 'frame cut short, 2 of 40 octets' "$(u32 5; u32 6; u32 40; u32 40)0200"
damaged no-frame 'frame cut short, 0 of 40 octets' "$(u32 5; u32 6; u32 40; u32 40)"
damaged absurd 'captured length 4294967295 is over 262144' "$(u32 5; u32 6; u32 0xffffffff; u32 0xffffffff)0200"
damaged over 'captured length 2 is over the original length 1' "$(u32 5; u32 6; u32 2; u32 1)0200"

# ---- Files that are refused, and an older output that stays ----

# refused NAME MESSAGE OCTETS
refused() {
    octets "$3" > refused.pcap
    printf 'older' > kept
    run 1 strip refused.pcap kept
    judge "refused, $1" kept older complained "trill-replay: refused.pcap: $2" said ''
}
refused 'pcapng' 'a pcapng file; convert it with: editcap -F pcap IN OUT, or -F nsecpcap for nanoseconds' '0A0D0D0A 1C000000 4D3C2B1A 01000000'
refused 'gzip' 'a gzip file; unpack it first, as with: gzip -dk IN.pcap.gz' '1F8B0800 00000000'
refused 'text' 'not a classic pcap file: it begins with 68 65 6C 6C' '68656C6C 6F20776F 726C640A'
refused 'a short file header' 'file header cut short: 20 of 24 octets' "$(header 65535 | cut -c 1-40)"
refused 'link type 113' 'link type 113: only captures of Ethernet, link type 1, are read' "$(header 65535 113)"
refused 'version 2.3' 'pcap version 2.3: only version 2.4 is read; convert with: editcap -F pcap IN OUT' \
    "$(header 65535 | sed 's/02000400/02000300/')"
: > empty
run 1 strip empty kept
judge 'refused, an empty file' kept older complained 'trill-replay: empty: an empty file, not a capture'
run 1 strip absent kept
judge 'refused, no file' kept older complained 'trill-replay: absent: No such file or directory'

cp in-micro-le.pcap same.pcap
ln same.pcap link.pcap
run 2 strip same.pcap link.pcap
judge 'the output is the input' same.pcap "$(hex in-micro-le.pcap)" complained 'trill-replay: link.pcap: is the input, too'
run 2 -d link.pcap strip same.pcap out.pcap
judge 'the delivered frames would go to the input' same.pcap "$(hex in-micro-le.pcap)" complained 'trill-replay: link.pcap: is the input, too'
printf older > kept
ln kept kept-too
run 2 -d kept-too strip same.pcap kept
judge 'the delivered frames would go to the output' kept older complained 'trill-replay: kept-too: is the output, too'
run 1 -d /dev/full strip same.pcap out.pcap
judge 'no room for the delivered frames' complained 'trill-replay: /dev/full: No space left on device'
run 2 -d - strip same.pcap -
judge 'two captures to standard output' complained 'trill-replay: two captures cannot both be standard output; trill-replay --help says more'
run 2 strip.txt same.pcap ./strip.txt
judge 'the output is the settings file' complained 'trill-replay: ./strip.txt: is the settings file, too'

# ---- Settings and words that are refused ----

# settings NAME STATUS MESSAGE TEXT
settings() {
    printf '%b' "$4" > wrong
    run "$2" wrong in-micro-le.pcap kept
    judge "settings, $1" kept older complained "$3" said ''
}
bad='(1: settings bad, or clock not six octets)'
settings 'no hex digit' 2 "wrong:2: 'G' is not a hex digit" '# 0G\n01 G'
settings 'half an octet' 2 "wrong:1: odd number of hex digits in '8'" '01 00 8\n'
settings 'half an octet at a comment' 2 "wrong:1: odd number of hex digits in '0'" '01 0# a\n'
settings 'half an octet at the end' 2 "wrong:2: odd number of hex digits in '0'" '01\n0'
settings 'nothing' 3 "wrong:1: no switch (tag 1) $bad" '# nothing\n'
settings 'a destination 0' 3 "wrong:3: field 2 (tag 2): destination 0000; wanted: 0001 to FFBF $bad" \
    "# a\n$switch\n02 000E 0000 0005 020000000005 00000001\n"
settings 'a neighbour out of range' 3 "wrong:2: field 2 (tag 2): neighbour FFC0; wanted: 0000 to FFBF $bad" \
    "$switch\n02 000E 0009 FFC0 020000000005 00000001\n"
settings 'a group MAC' 3 "wrong:2: field 2 (tag 2): neighbour's MAC 030000000005 is a group address; wanted: individual, not all zero $bad" \
    "$switch\n02 000E 0009 0005 030000000005 00000001\n"
settings 'an outer VLAN out of range' 3 "wrong:2: field 2 (tag 2): outer VLAN 2005; wanted: 0000 to 0FFE $bad" \
    "$switch\n02 0010 0009 0005 020000000005 00000001 2005\n"
settings 'a next hop of 15 octets' 3 "wrong:2: field 2 (tag 2): next hop of 15 octets; wanted: 14 or 16 $bad" \
    "$switch\n02 000F 0009 0005 020000000005 00000001 00\n"
settings 'a MAC of zero' 3 "wrong:1: field 1 (tag 1): MAC 000000000000; wanted: individual, not all zero $bad" '01 0008 0001 000000000000'
settings 'a nickname out of range' 3 "wrong:1: field 1 (tag 1): nickname FFC0; wanted: 0001 to FFBF $bad" '01 0008 FFC0 020000000001'
settings 'a header cut short' 3 "wrong:2: field 2 (tag 3): 2 octets there; wanted: 3 for a tag and a length $bad" "$switch\n03 00"
settings 'a value cut short' 3 "wrong:2: field 2 (tag 2): 14 octets announced, 12 there $bad" "$switch\n02 000E 0009 0005 020000000005 0000"
settings 'a flag of 2' 3 "wrong:2: field 2 (tag 3): strip flag 02; wanted: 00 or 01 $bad" "$switch\n03 0001 02"
settings 'a length' 3 "wrong:2: field 2 (tag 3): strip flag of 2 octets; wanted: 1 $bad" "$switch\n03 0002 0101"
settings 'no such tag' 3 "wrong:1: field 2 (tag 9): no such tag; wanted: 1 to 6 $bad" "$switch 09 0000"
settings 'a clock' 3 "wrong:2: field 2 (tag 4): clock, which is no part of settings $bad" "$switch\n04 0006 000000000000"
settings 'a second switch' 3 "wrong:2: field 2 (tag 1): second switch; wanted: one $bad" "$switch\n$switch"
settings 'a flag first' 3 "wrong:1: field 1 (tag 3): strip flag before any switch (tag 1) $bad" "03 0001 01 $switch"
settings 'a serial twice' 3 "wrong:3: field 3 (tag 2): serial 00000001 for destination 0009, as the next hop in field 2, line 2; wanted: another $bad" \
    "$switch\n$hop\n02 000E 0009 0000 020000000005 00000001"
many=$(for serial in 0 1 2 3 4 5 6; do for low in 0 1 2 3 4 5 6 7 8 9; do echo "02 000E 0009 0005 020000000005 000000$serial$low"; done; done)
settings '65 next hops' 3 "wrong:66: field 66 (tag 2): 65 next hops of one switch; wanted: at most 64 $bad" "$switch\n$many"
octets "$switch $hop $hop" > wrong
run 3 wrong in-micro-le.pcap kept
judge 'settings, a serial twice in raw octets' complained \
    "wrong: octet 28: field 3 (tag 2): serial 00000001 for destination 0009, as the next hop in field 2; wanted: another $bad"
printf '30\000' > wrong
run 3 wrong in-micro-le.pcap kept
judge 'settings, raw by a later octet' complained "wrong: octet 0: field 1 (tag 51): 12288 octets announced, 0 there $bad
wrong: read as raw octets, since octet 2 is the control character 00"
run 2 /dev/zero in-micro-le.pcap kept
judge 'settings without end' complained 'trill-replay: /dev/zero: over 32,768 octets, so it was not read to its end'
run 1 . in-micro-le.pcap kept
judge 'settings, a folder' complained 'trill-replay: .: Is a directory'
run 0 - in-micro-le.pcap out.pcap < strip.txt
judge 'settings on standard input' out.pcap "$expected" said "$summary"

more='; trill-replay --help says more'
no_clock='trill-replay: a clock is stamp, SECONDS.MICROSECONDS or 12 hex digits, and this is none'
run 2 strip in-micro-le.pcap
judge 'too few words' said '' complained "trill-replay: settings, input and output are wanted$more"
run 2 strip in-micro-le.pcap kept -v more
judge 'too many words' kept older complained "trill-replay: settings, input and output are wanted, and not also more$more"
run 2 - - kept
judge 'standard input twice' kept older complained "trill-replay: settings and input cannot both be standard input$more"
run 2 strip in-micro-le.pcap kept --raw
judge 'no such option' kept older complained "trill-replay: no such option: --raw$more"
run 2 strip in-micro-le.pcap kept -c
judge 'an option without its word' kept older complained "trill-replay: a word is missing after -c$more"
run 2 -c 00000100000 strip in-micro-le.pcap kept
judge 'a clock of 11 digits' kept older complained "$no_clock: 00000100000$more"
run 2 --clock 00000100000G strip in-micro-le.pcap kept
judge 'a clock that is not hex' kept older complained "$no_clock: 00000100000G$more"
run 2 --clock 1.0000001 strip in-micro-le.pcap kept
judge 'a clock of seven digits behind the point' kept older complained "$no_clock: 1.0000001$more"
run 0 --help
judge 'help' complained ''
mv said help
run 0 -h
judge 'help by its letter' said "$(cat help)" complained ''
run 0 --version
judge 'version' said "trill-replay $version" complained ''

# ---- A longer capture, and writing that fails ----

octets "$(record 1 2 "$transit")" > records
for doubling in 1 2 3 4 5 6 7 8 9 10 11 12 13 14; do
    cat records records > twice
    mv twice records
done
octets "$(header 65535)" > long.pcap
cat records >> long.pcap
run 0 strip long.pcap out.pcap
judge '16,384 frames' complained '' said '    frames
     16384  read
     16384  handled, by answer:
     16384    50 forwarded
     16384  written, 655360 octets'
run 1 strip long.pcap /dev/full
judge 'no room on the device' complained 'trill-replay: /dev/full: No space left on device' said ''

# A disk that fills: the summary counts what is in the file, and the file ends with a whole record.
(ulimit -f 100 && exec "$tool" strip long.pcap out.pcap) > said 2> complained
status=$? wanted=1
steady
size=$(wc -c < out.pcap)
tail -n 1 said > last
judge 'no more room after a while' complained 'trill-replay: out.pcap: File too large' \
    last "$(printf '%10d  written, %d octets' $(((size - 24) / 56)) $(((size - 24) / 56 * 40)))"
wanted=0 status=$(((size - 24) % 56))
judge 'a whole record last' complained 'trill-replay: out.pcap: File too large'
[ "$size" -gt 24 ]
status=$?
judge 'what was written stays'
wanted=1

# Closed streams do not lend their numbers to the captures.
"$tool" strip in-micro-le.pcap out.pcap <&- >&- 2> complained
status=$?
judge 'closed streams' out.pcap "$expected" complained 'trill-replay: summary: Bad file descriptor'
"$tool" strip - out.pcap <&- > said 2> complained
status=$?
judge 'closed standard input' complained 'trill-replay: -: Bad file descriptor'
{ "$tool" strip long.pcap - 2> complained; echo $? > ended; } | :
status=$(cat ended) wanted=1
head -n 1 complained > first
judge 'a closed pipe' first 'trill-replay: -: Broken pipe'
"$tool" strip long.pcap out.pcap > /dev/full 2> complained
status=$?
judge 'no room for the summary' complained 'trill-replay: summary: No space left on device'

[ "$failed" -eq 0 ]
