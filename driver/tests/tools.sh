#!/bin/sh
# Tests of the program given beyond the run it prints: the text form and the way back, a run in words, as JSON, as a picture and as a
# capture, and frames explained. Prints `ok NAME` or `not ok NAME: WHY` for each, or `skipped NAME: WHY`.
set -u
tool=$(CDPATH='' cd -- "$(dirname -- "$1")" && pwd)/$(basename -- "$1") || exit 1
examples=$(CDPATH='' cd -- "$(dirname -- "$0")/../../examples" && pwd) || exit 1
dir=$(mktemp -d) || exit 1
trap 'rm -rf "$dir"' EXIT
cd "$dir" || exit 1
failed=0

# verdict NAME STATUS WHY
verdict() {
    if [ "$2" -eq 0 ]; then
        printf 'ok %s\n' "$1"
    else
        failed=$((failed + 1))
        printf 'not ok %s: %s\n' "$1" "$3"
    fi
}

# run ARGUMENT..: what the program prints and says goes to the files out and err
run() {
    timeout 60 "$tool" "$@" > out 2> err
    status=$?
}

# expect NAME STATUS OUT ERR: the latest run ended so, printed OUT and said ERR
expect() {
    [ "$status" -eq "$2" ] && [ "$(cat out)" = "$3" ] && [ "$(cat err)" = "$4" ]
    verdict "$1" $? "exit status $status; $(cat out err)"
}

hex() { od -An -v -tx1 "$@" | tr -d ' \n'; }

# ---- The text form ----

# becomes NAME TEXT DIGITS: the text says these octets, and their text does so too
becomes() {
    printf '%b' "$2" > text
    run --octets text
    mv out octets
    [ "$status" -eq 0 ] && [ "$(hex octets)" = "$3" ] && "$tool" --text octets > again && "$tool" --octets again | cmp -s - octets
    verdict "text: $1" $? "exit status $status; $(cat err); $(hex octets); $(cat again)"
}
becomes 'a switch' 'switch 0001 mac 02:00:00:00:00:01' 0100080001020000000001
becomes 'a switch that strips' '# a comment\n\n  switch\t00aF mac 02-00-00-00-00-0f strip # more\r\n' 01000800af02000000000f03000101
becomes 'strip and edition' 'switch 0001 mac 02:00:00:00:00:01 edition 2 strip' 01000800010200000000010600010203000101
becomes 'a next hop' 'to 0009 via 0005 mac 02:00:00:00:00:05 serial 4294967295' 02000e00090005020000000005ffffffff
becomes 'a next hop with a VLAN' 'to 0009 via 0005 mac 02:00:00:00:00:05 serial 1 vlan 4094' 02001000090005020000000005000000010ffe
becomes 'a withdrawal' 'to 0009 withdrawn mac 02:00:00:00:00:05 serial 0' 02000e0009000002000000000500000000
becomes 'flags of their own' 'strip\nstrip off\nedition 1\nedition 255' 0300010103000100060001010600'01ff'
becomes 'clocks' 'clock 1.000009\nclock 16777215.5\nclock 0' 04000600000100000904'0006ffffff07a120''040006000000000000'
becomes 'a frame' 'frame at 0002 hex 0102 03\n  04 # 05\n\n06\nclock 0.0' 05000700020102030406040006000000000000
becomes 'an empty frame' 'frame at 0002 hex' 0500020002
becomes 'any field' 'field 255 hex 01\nfield 0 hex\nfield 2 hex 00' ff0001010000000200'0100'
becomes 'octets as they are' 'octets hex 050009\nstrip' 05000903000101
becomes 'a clock of many microseconds' 'field 4 hex 0000010F4240' 0400060000010f4240
becomes 'a byte order mark' '\357\273\277strip' 03000101

for file in "$examples"/*.hex; do
    "$tool" --octets "$file" > octets
    "$tool" --text octets > again
    "$tool" --octets again | cmp -s - octets
    verdict "text: $(basename "$file") reads back" $? "$(cat again)"
done
run --text "$examples/refused-41.hex"
[ "$(tail -n 1 out | cut -c 1-11)" = 'octets hex ' ] || [ "$(grep -c '^octets hex' out)" -eq 1 ]
verdict 'text: a field cut short' $? "$(cat out)"
run --text /dev/zero
expect 'text: more than a description' 1 '' 'staffripple: /dev/zero: longer than any description, so it was not read to its end'

# faulty NAME TEXT LINE FAULT
faulty() {
    printf '%b' "$2" > 'a text'
    run 'a text'
    expect "fault: $1" 2 '' "a text:$3: $4"
}
nickname='a nickname, 4 hex digits'
mac='a MAC such as 02:00:00:00:00:01'
clock='seconds up to 16777215 and at most six digits of a fraction, such as 1.000009'
faulty 'no such line' 'strip\nswich 0001' 2 "'swich' begins no line; wanted: switch, to, strip, edition, clock, frame, field or octets"
faulty 'hex digits first' 'strip 01' 1 "'01' found; wanted: the end of the line"
faulty 'hex digits where there are none' 'strip\n01' 2 "'01' begins no line; wanted: switch, to, strip, edition, clock, frame, field or octets"
faulty 'no nickname' 'switch' 1 "end of the line found; wanted: $nickname"
faulty 'a nickname on the next line' 'switch\n0001' 1 "end of the line found; wanted: $nickname"
faulty 'a nickname of 3 digits' 'switch 001 mac' 1 "'001' found; wanted: $nickname"
faulty 'a nickname that is not hex' 'switch 0x01 mac' 1 "'0x01' found; wanted: $nickname"
faulty 'no MAC' 'switch 0001 strip' 1 "'strip' found; wanted: mac"
faulty 'a short MAC' 'switch 0001 mac 02:00:00:00:00' 1 "'02:00:00:00:00' found; wanted: $mac"
faulty 'a MAC of another form' 'switch 0001 mac 0200.0000.0001' 1 "'0200.0000.0001' found; wanted: $mac"
faulty 'strip twice' 'switch 0001 mac 02:00:00:00:00:01 strip strip' 1 "'strip' found; wanted: strip, edition or the end of the line, each once"
faulty 'an edition that is none' 'edition 256' 1 "'256' found; wanted: a number from 0 to 255"
faulty 'neither via nor withdrawn' 'to 0009 over 0005' 1 "'over' found; wanted: via or withdrawn"
faulty 'a serial too great' 'to 0009 withdrawn mac 02:00:00:00:00:01 serial 4294967296' 1 "'4294967296' found; wanted: a number from 0 to 4294967295"
faulty 'a serial below zero' 'to 0009 withdrawn mac 02:00:00:00:00:01 serial -1' 1 "'-1' found; wanted: a number from 0 to 4294967295"
faulty 'a VLAN too great' 'to 0009 withdrawn mac 02:00:00:00:00:01 serial 1 vlan 65536' 1 "'65536' found; wanted: a number from 0 to 65535"
faulty 'more behind a next hop' 'to 0009 withdrawn mac 02:00:00:00:00:01 serial 1 strip' 1 "'strip' found; wanted: the end of the line"
faulty 'a clock of seven digits' 'clock 1.0000001' 1 "'1.0000001' found; wanted: $clock"
faulty 'a clock too great' 'clock 16777216.0' 1 "'16777216.0' found; wanted: $clock"
faulty 'a clock without digits' 'clock .' 1 "'.' found; wanted: $clock"
faulty 'a clock with nothing behind the point' 'clock 1.' 1 "'1.' found; wanted: $clock"
faulty 'a frame nowhere' 'frame hex 00' 1 "'hex' found; wanted: at"
faulty 'a frame from nowhere' 'frame at 0001 00' 1 "'00' found; wanted: hex or from"
faulty 'half an octet' 'frame at 0001 hex 00\n 123' 2 "odd number of hex digits in '123'"
faulty 'no hex digit' 'frame at 0001 hex 00\n 12 0G' 2 "'0G' found; wanted: hex digits"
faulty 'a tag too great' 'field 256 hex' 1 "'256' found; wanted: a number from 0 to 255"
faulty 'a long word' "strip $(printf '%0100d' 0)" 1 "'00000000000000000000000000000000...' found; wanted: the end of the line"
faulty 'characters that no terminal shows' 'strip \0303\0251\0233' 1 "'???' found; wanted: the end of the line"
faulty 'no capture' 'frame at 0001 from' 1 'end of the line found; wanted: the path of a capture'
faulty 'an empty path' 'frame at 0001 from "" 1' 1 "'\"\"' found; wanted: the path of a capture"
faulty 'frame 0 of a capture' 'frame at 0001 from in.pcap 0' 1 "'0' found; wanted: a number from 1 to 4294967295"

printf 'switch 0001 mac 02:00:00:00:00:01\n\nto 0009 via FFC0 mac 02:00:00:00:00:05 serial 1\n' > 'a text'
run 'a text'
expect 'refused: with the line of the text form' 3 'refused 44' \
    'a text:3: field 2 (tag 2): neighbour FFC0; wanted: 0000 to FFBF (44: value outside the settings rules)'

# ---- Frames from captures ----

mkdir 'a folder'
"$tool" --pcap "$examples/campus.txt" > 'a folder/in it.pcap'
sed '/^frame/,$d' "$examples/campus.txt" > 'a folder/campus.txt'
echo 'frame at 0002 from "in it.pcap" 1 # the first' >> 'a folder/campus.txt'
run 'a folder/campus.txt'
expect 'a frame from a capture beside the text' 0 "$(cat "$examples/C1.out")" ''

# unread NAME STATUS WORDS FAULT: a frame from a capture that is not good
unread() {
    echo "frame at 0001 from $3" > 'a folder/bad.txt'
    run 'a folder/bad.txt'
    expect "capture: $1" "$2" '' "a folder/bad.txt:1: $4"
}
unread 'none' 1 'none.pcap 1' 'a folder/none.pcap: No such file or directory'
unread 'not so many frames' 1 '"in it.pcap" 5' 'a folder/in it.pcap: 4 frames there, and no frame 5'
unread 'not a capture' 1 'campus.txt 1' 'a folder/campus.txt: not a classic pcap file: it begins with 23 20 54 68'
unread 'an absolute path' 1 '/dev/null 1' '/dev/null: an empty file, not a capture'
head -c 60 'a folder/in it.pcap' > 'a folder/cut.pcap'
unread 'a damaged one' 1 'cut.pcap 1' 'a folder/cut.pcap: record 1 at offset 24: frame cut short, 20 of 76 octets'

# ---- A run in words, and how it ends ----

switch='switch 0001 mac 02:00:00:00:00:01'
received='020000000001 020000000002 22F3'
inner='020000000077 020000000088 8100 0005 0800 4500'

# ends NAME FRAME LINE: the frame at a switch that reaches 0009 over 0005, which is no switch of the campus
ends() {
    printf '%s\nto 0009 via 0005 mac 02:00:00:00:00:05 serial 1\nframe at 0001 hex %s\n' "$switch" "$2" > campus
    run --words campus
    tail -n 1 out > last
    [ "$status" -eq 0 ] && [ "$(cat last)" = "$3, after 1 handling" ]
    verdict "ends: $1" $? "$(cat out err)"
    "$tool" --json campus > out
    [ "$(grep -c "\"words\": \"$3\"}}\$" out)" -eq 1 ]
    verdict "ends, as JSON: $1" $? "$(cat out)"
}
ends 'delivered' "$received 0005 0001 0004 $inner" 'delivered at 0001'
ends 'handed up' "$received 0005 0001 0004 0180C2000042 020000000088 8100 0005 22F4" 'handed up at 0001'
ends 'dropped' "$received 0000 0001 0004 $inner" 'original dropped with 17, hop count 0, at 0001'
ends 'no frame at all' '' 'original dropped with 10, link header or TRILL header cut short, at 0001'
ends 'left' "$received 0005 0009 0004 $inner" 'original left the campus towards 0005, sent by 0001'
ends 'a reply left' "$received 0005 0001 0009 0180C2000042 020000000088 8100 0001 8946 0FF8 4000 30000001 0200 000000000000 000000000000" \
    'reply left the campus towards 0005, sent by 0001'
ends 'an error reply left' "$received 0005 0001 0009 0180C2000042 020000000088 8100 0001 0800" \
    'reply left the campus towards 0005, sent by 0001'
ends 'an error heard' "$received 0005 0001 0009 0180C2000042 020000000088 8100 0001 8946 0001 C005" 'error heard at 0001'
ends 'an echo reply heard' "$received 0005 0001 0009 0180C2000042 020000000088 8100 0001 8946 0FF8 C000 40000001 0200 000000000000 000000000000" \
    'echo reply heard at 0001'

# The neighbour is that of the record that rules, and not of another with the same MAC.
printf '%s\nto 0009 via 0007 mac 02:00:00:00:00:05 serial 8\nto 0009 via 0005 mac 02:00:00:00:00:05 serial 9\nto 0009 via 0006 mac 02:00:00:00:00:05 serial 7\nframe at 0001 hex %s\n' \
    "$switch" "$received 0005 0009 0004 $inner" > campus
run --words campus
expect 'the neighbour of the record that rules' 0 '   1  0001  original  hop count  5  egress 0009  50 forwarded; 40 octets sent to 0005
original left the campus towards 0005, sent by 0001, after 1 handling' ''

# An alerted ping of edition 2: a reply beside each forwarding, in a campus that they leave and in one that they do not.
echo='0180C2000042 020000000004 8100 0001 8946 0FF8 4000 30000001 0200 000000000000 000000000000'
printf '%s edition 2\nto 0009 via 0005 mac 02:00:00:00:00:05 serial 1\nto 0004 via 0006 mac 02:00:00:00:00:06 serial 1\nframe at 0001 hex %s\n' \
    "$switch" "$received 0045 0009 0004 81000000 $echo" > alerted
run --words alerted
expect 'an original and a reply leave at once' 0 '   1  0001  original  hop count  5  egress 0009  50 forwarded; 64 octets sent to 0005; reply of 60 octets sent to 0006, which is no switch of the campus
original left the campus towards 0005, sent by 0001, after 1 handling' ''
run --words "$examples/alerted-ping.hex"
{ sed -n 1p out; sed -n '4,5p;$p' out; } > some
[ "$(cat some)" = '   1  0002  original  hop count  5  egress 0005  50 forwarded; 64 octets sent to 0003; reply of 60 octets sent to 0001
   4  0005  original  hop count  2  egress 0005  54 echo request: echo reply; 60 octets sent to 0004
   5  0001  reply     hop count 63  egress 0001  56 echo reply heard
echo reply heard at 0001, after 14 handlings and with 4 replies' ]
verdict 'replies run after the original has stopped' $? "$(cat out err)"
"$tool" --json alerted > out
grep -q '"neighbour": "0005", "beside_neighbour": "0006", .*"beside": "02000000000602000000000122F3003F00040001' out && grep -q '"handled": 1, "replies": 1, ' out
verdict 'JSON: a reply beside a forwarded frame' $? "$(cat out)"
"$tool" --pcap alerted > alerted.pcap
[ "$(wc -c < alerted.pcap)" -eq $((24 + 16 + 64 + 16 + 64 + 16 + 60)) ]
verdict 'capture: both frames that left' $? "$(hex alerted.pcap)"
"$tool" --svg alerted > out
[ "$(grep -c 'class="reply"' out)" -eq 1 ] && [ "$(grep -c 'class="original"' out)" -eq 2 ] && grep -q '>0006+<' out &&
    grep -q '1: 0001, hop count 5: 50 forwarded, and a reply<' out
verdict 'picture: a reply beside a forwarded frame' $? "$(cat out)"
"$tool" --svg "$examples/alerted-ping.hex" > out
[ "$(grep -c 'class="reply"' out)" -eq 4 ] && [ "$(grep -c 'class="original"' out)" -eq 4 ] && ! grep -q 'class="outside' out
verdict 'picture: an alerted ping' $? "$(cat out)"

for file in "$examples"/*.hex; do
    name=$(basename "$file" .hex)
    run --words "$file"
    case $(cat "$examples/$name.out") in
    refused*)
        number=$(sed 's/refused //' "$examples/$name.out")
        expect "words: $name" 3 "refused with $number, $("$tool" --answers | sed -n "s/^$number  //p")" "$(sed "s|^$name.hex|$file|" "$examples/$name.err")"
        ;;
    *)
        sed '$d' out | awk '{ printf "%s %s %d %02X %s\n", $2, $3 == "reply" ? "R" : "O", $9, $6, $8 }' > lines
        sed '$d' "$examples/$name.out" | cmp -s - lines
        verdict "words: $name" $? "$(cat out err)"
        ;;
    esac
done

# ---- As JSON, as a picture, as a capture ----

run --json campus
expect 'JSON' 0 '{"code": 0, "meaning": "run", "handlings": [
  {"number": 1, "switch": "0001", "frame": "original", "hop_count": 5, "egress": "0009", "answer": 50, "meaning": "forwarded", "start": 0, "length": 0, "neighbour": "0005", "beside_neighbour": null, "received": "02000000000102000000000222F300050009000402000000007702000000008881000005080'\
'04500", "written": "02000000000502000000000122F30004000900040200000000770200000000888100000508004500", "beside": null}],
 "handled": 1, "replies": 0, "end": {"how": "left", "switch": "0001", "answer": 50, "towards": "0005", "words": "original left the campus towards 0005, sent by 0001"}}' ''
run --json "$examples/refused-48.hex"
expect 'JSON: refused' 3 '{"code": 48, "meaning": "entry switch unknown"}' "$(sed "s|^refused-48.hex|$examples/refused-48.hex|" "$examples/refused-48.err")"
mkdir shown
for file in "$examples"/*.hex "$examples/campus.txt"; do
    "$tool" --json "$file" > "shown/$(basename "$file").json" 2> err
    "$tool" --svg "$file" > "shown/$(basename "$file").svg" 2> err
done
find shown -size 0 -exec rm {} + # the pictures of descriptions that are refused
if command -v python3 > /dev/null; then
    python3 -c 'import glob, json; [json.load(open(name)) for name in glob.glob("shown/*.json")]' 2> err
    verdict 'JSON: well formed' $? "$(tail -n 1 err)"
    python3 -c 'import glob, xml.dom.minidom; [xml.dom.minidom.parse(name) for name in glob.glob("shown/*.svg")]' 2> err
    verdict 'picture: well formed' $? "$(tail -n 1 err)"
else
    echo 'skipped whether JSON and pictures are well formed: python3 is not installed'
fi

run --svg "$examples/campus.txt"
grep -oE '>(0[0-9A-F]{3}|enters|[0-9][0-9, ]*|echo reply heard at 0001|[0-9]+: [^<]*)<' out | tr -d '<>' | sort | tr '\n' ';' > words
[ "$(cat words)" = '0001;0002;0003;1;1: 0002, hop count 5: 50 forwarded;2;2: 0003, hop count 4: 54 echo request: echo reply;3;3: 0002, hop count 63: 50 forwarded;4: 0001, hop count 62: 56 echo reply heard;echo reply heard at 0001;enters;' ]
verdict 'picture: what is written in it' $? "$(cat words)"
[ "$(grep -c 'class="original"' out)" -eq 2 ] && [ "$(grep -c 'class="reply"' out)" -eq 2 ] && [ "$(grep -c 'class="link"' out)" -eq 4 ]
verdict 'picture: its arrows and links' $? "$(cat out)"
run --svg "$examples/refused-41.hex"
expect 'picture: refused' 3 '' "$(sed "s|^refused-41.hex|$examples/refused-41.hex|" "$examples/refused-41.err")"

run --pcap campus
expected="d4c3b2a1020004000000000000000000000800000100000000000000010000002800000028000000\
02000000000102000000000222f30005000900040200000000770200000000888100000508004500\
00000000020000002800000028000000\
02000000000502000000000122f30004000900040200000000770200000000888100000508004500"
[ "$(hex out)" = "$expected" ]
verdict 'capture: the frame in, and the one that left' $? "$(hex out)"
"$tool" --pcap "$examples/run-80.hex" | wc -c | tr -d ' ' > size
[ "$(cat size)" -gt $((24 + 80 * 36)) ]
verdict 'capture: a record for each of 80 handlings' $? "$(cat size)"

# ---- Frames explained ----

# explains NAME FRAME LINE..: these lines are among those printed of the frame
explains() {
    name=$1 why=''
    printf '%s\n' "$2" > frame
    shift 2
    run --explain settings frame
    [ "$status" -eq 0 ] || why="exit status $status, "
    for wanted; do
        grep -qxF -e "$wanted" out || why="$why no line $wanted, "
    done
    [ -z "$why" ]
    verdict "explained: $name" $? "$why$(cat out err)"
}
option='option IE 0 (hop-by-hop), NC 1 (not critical), Type 01, MT 1 (mutable), Length 2'
printf '%s strip\nto 0009 via 0005 mac 02:00:00:00:00:05 serial 1 vlan 4094\n' "$switch" > settings
explains 'an outer VLAN' "$received 00C5 0009 0004 00000000 41820007 4582AABB $inner" "    24  41820007                  $option: kept" \
    '    28  4582AABB                  option IE 0 (hop-by-hop), NC 1 (not critical), Type 05, MT 1 (mutable), Length 2: taken out' \
    'written: 52 octets, to neighbour 0005' '    12  81000FFE                  tag 8100: priority 0, DEI 0, VLAN 4094' "    28  41820007                  $option"
printf '%s strip\nto 0009 via 0005 mac 02:00:00:00:00:05 serial 1\n' "$switch" > settings
explains 'a tag' '020000000001 020000000002 8100 6005 22F3 0005 0009 0004' \
    '    12  81006005                  tag 8100: priority 3, DEI 0, VLAN 5' '    18  0005                      V 0, R 0, M 0, Op-Length 0, hop count 5' \
    'answer 50: forwarded' 'written: 20 octets, to neighbour 0005' '    20  the frame ends, before the inner DA, SA, tag and Ethertype'
explains 'options kept and taken out' "$received 0145 0009 0004 00000001 41820007 4283AABB CC000000 4502AABB $inner" \
    '    20  00000001                  first word: CHbH 0, CItE 0, bit options 00000001' "    24  41820007                  $option: kept" \
    '    28  4283AABBCC000000          option IE 0 (hop-by-hop), NC 1 (not critical), Type 02, MT 1 (mutable), Length 3: taken out'
explains 'an option at fault' "$received 00C5 0009 0004 00000000 41820007 41820008 $inner" \
    "    24  41820007                  $option" "    28  41820008                  $option: at fault, 33 option key equal to the one before" \
    'answer 33: option key equal to the one before'
explains 'an option past the area' "$received 0085 0009 0004 00000000 41860007 $inner" \
    '    24  41860007                  option IE 0 (hop-by-hop), NC 1 (not critical), Type 01, MT 1 (mutable), Length 6: at fault, 31 option past the options area'
explains 'a critical option' "$received 0085 0001 0004 40000000 81020007 $inner" '  options area, 8 octets, not forwarded' \
    '    24  81020007                  option IE 1 (ingress-to-egress), NC 0 (critical), Type 01, MT 0 (immutable), Length 2' \
    'answer 20: critical option or flag that affects us'
explains 'an area that runs past the frame' "$received 0105 0009 0004 00000000 41820007" \
    '  options area, 16 octets, cut short, not forwarded' "    24  41820007                  $option" 'answer 18: options area runs past the frame'
explains 'a delivered frame' "$received 0005 0001 0004 $inner" 'answer 51: delivered' 'delivered: the inner frame, 20 octets from octet 20 on' \
    '    38  4500                      data, 2 octets'
explains 'an error reply' "$received 0005 0001 0009 0180C2000042 020000000088 8100 0001 8946 1001 4000" 'answer 53: channel fault: error reply' \
    '  error body, 30 octets of the frame at fault, from its Ethertype on' '    40  C003                      flags C00: SL 1, MH 1, NA 0; ERR 3' \
    '    44  0005                      V 0, R 0, M 0, Op-Length 0, hop count 5'
explains 'a channel header cut short' "$received 0005 0001 0009 0180C2000042 020000000088 8100 0001 8946 10" '    38  10                        the channel header: cut short'
explains 'an echo body cut short' "$received 0005 0001 0009 0180C2000042 020000000088 8100 0001 8946 0FF8 4000 3000" '  echo body, 2 octets' \
    '    42  3000                      SPID, sequence, mode, flags and times: cut short' 'answer 27: echo body under 18 or over 530 octets, or SPID neither 3 nor 4'
explains 'another Ethertype' '020000000001 020000000002 0800 4500' '    12  0800                      Ethertype 0800' 'answer 11: Ethertype not 0x22F3'
explains 'a TRILL header cut short' "$received 0005" '    14  0005                      the TRILL header: cut short' 'answer 10: link header or TRILL header cut short'
explains 'a few octets' '0200' '     0  0200                      the outer DA and SA: cut short'
explains 'no octets' '' '     0  the frame ends, before the outer DA and SA'
explains 'a tag cut short' '020000000001 020000000002 8100 00' '    12  810000                    the tag: cut short'

printf '%s edition 2\nto 0009 via 0005 mac 02:00:00:00:00:05 serial 1\nto 0004 via 0006 mac 02:00:00:00:00:06 serial 1\n' "$switch" > settings
explains 'an alert, and a reply beside' "$received 0045 0009 0004 81000000 $echo" '  header extension, 4 octets' \
    '    20  81000000                  extended flags: CRHbH 1, CRItE 0, CRRsv 0, CRCAF 1, NCCAF 0' 'answer 50: forwarded' \
    'written: 64 octets, to neighbour 0005' 'written beside it: 60 octets, to neighbour 0006'
explains 'flags at fault' "$received 0045 0009 0004 01000000 $inner" '  header extension, 4 octets, not forwarded' \
    '    20  01000000                  extended flags: CRHbH 0, CRItE 0, CRRsv 0, CRCAF 1, NCCAF 0: at fault, 38 critical flag and summary bit at odds, edition 2'
explains 'flags of each kind' "$received 00C5 0009 0004 E0FAA8D5 01020304 05060708 $inner" \
    '    20  E0FAA8D5                  extended flags: CRHbH 1, CRItE 1, CRRsv 1, CRCAF 0, NCCAF 1; non-critical hop-by-hop bit 9, 10, 11, 12; critical reserved bit 14, 16; non-critical reserved bit 18, 20; critical ingress-to-egress bit 24, 25; non-critical ingress-to-egress bit 27, 29, 31' \
    '    24  0102030405060708          extensions, 8 octets, which are carried unread'
explains 'an unknown critical flag' "$received 0045 0009 0004 90000000 $inner" \
    '    20  90000000                  extended flags: CRHbH 1, CRItE 0, CRRsv 0, CRCAF 0, NCCAF 0; critical hop-by-hop bit 3' \
    'answer 20: critical option or flag that affects us'
printf '%s strip\nto 0009 via 0005 mac 02:00:00:00:00:05 serial 1\n' "$switch" > settings

printf '%s\n' "$received 0005 0001 0009 0180C2000042 020000000088 8100 0001 8946 0FF8 4000 30000001 0200 000000000000 000000000000" > frame
run --explain -c 5.25 settings frame
grep -qxF '    54  00000503D090              time received 5 s, 250000 microseconds' out
verdict 'explained: with a clock' $? "$(cat out err)"
run --explain "$examples/C1.hex"
sed -n 's/^answer \([0-9]*\): .*/\1/p' out | tr '\n' ' ' > numbers
[ "$(cat numbers)" = '50 54 50 56 ' ] && [ "$(tail -n 1 out)" = '== echo reply heard at 0001' ]
verdict 'explained: each handling of a run' $? "$(cat out err)"

"$tool" --pcap campus > run.pcap
"$tool" --explain settings run.pcap 1 > out
sed -n 's/^frame at 0001 hex //p' campus > frame
"$tool" --explain settings frame | cmp -s - out
verdict 'explained: the same from a capture and from hex text' $? "$(cat out)"
more='; staffripple --help says more'
run --explain settings run.pcap
expect 'explained: a capture without a number' 2 '' "staffripple: the number of a frame is wanted after the capture run.pcap$more"
run --explain settings run.pcap 0
expect 'explained: frame 0' 2 '' "staffripple: the number of a frame is wanted, from 1 on, and this is none: 0$more"
run --explain settings run.pcap 1x
expect 'explained: no number' 2 '' "staffripple: the number of a frame is wanted, from 1 on, and this is none: 1x$more"
run --explain settings run.pcap 99999999999999999999999
expect 'explained: a number too great' 2 '' "staffripple: the number of a frame is wanted, from 1 on, and this is none: 99999999999999999999999$more"
run --explain settings run.pcap 3
expect 'explained: not so many frames' 1 '' 'staffripple: run.pcap: 2 frames there, and no frame 3'
run --explain settings frame 1
expect 'explained: no capture' 1 '' 'staffripple: frame: not a classic pcap file: it begins with 30 32 30 30'
run --explain campus frame
expect 'explained: a description in place of settings' 3 '' 'campus:5: field 5 (tag 5): entry, which is no part of settings (1: settings bad, or clock not six octets)'
run --explain settings frame 1 2
expect 'explained: words too many' 2 '' "staffripple: settings, a capture and a number, and not also 2$more"
run --explain - -
expect 'explained: standard input twice' 2 '' "staffripple: settings and frame cannot both be standard input$more"
run --explain -c 1 settings frame
expect 'explained: no clock' 2 '' "staffripple: a clock is SECONDS.MICROSECONDS or 12 hex digits, and this is none: 1$more"
run --words --json campus
expect 'two ways at once' 2 '' "staffripple: one of these at a time: --json$more"

# ---- Output that is lost ----

for option in --words --json --svg --pcap --explain --text; do
    timeout 60 "$tool" "$option" campus > /dev/full 2> err
    status=$?
    : > out
    expect "$option on a full disk" 1 '' 'staffripple: standard output: No space left on device'
done
[ "$failed" -eq 0 ]
