#!/usr/bin/env bash
# Checks tools/ptides-rows: on the log of examples/canlog beside log2asc, on dumps of iverilog, on what wave writes, and on
# recordings whose rows were worked by hand. The last line is `N passed, M failed, K skipped`.
#
# What is in single quotes is meant as it is: VCD has dollars, and lines of rows have back-quotes.
# shellcheck disable=SC2016
# shellcheck source-path=SCRIPTDIR source=counting.sh
. "$(dirname -- "$(realpath -- "$0")")/counting.sh" || exit 1
is_there python3 || { skip "all of rows, since there is no python3"; finish; exit; }
rows=$top/tools/ptides-rows
example=$top/examples/canlog
cd -- "$work" || exit 1

# rows_are WHAT ROWS WORD..: `rows` with these words gives these rows, parted by spaces.
rows_are() {
    local what=$1 wanted=$2
    shift 2
    equal "$what" "time,seen,value $wanted" "$("$rows" "$@" 2>&1 >rows.out | grep -v -e '^[0-9]* rows, ' -e '^seen - time' -e '^longest' \
        -e '^this recording' -e '^passed over' -e '^with --phase'; tr '\n' ' ' <rows.out | sed 's/ $//')"
}

check_the_example() {
    local name
    (cp -- "$example/record.py" . && python3 ./record.py)
    same "canlog: drive.log is what record.py writes" "$example/drive.log" drive.log
    "$rows" candump drive.log --id 0A0 --bytes 0:2 --order big --scale 2 --period 20000 --phase 0 -o speed.csv 2>speed.report
    "$rows" candump drive.log --id 0x0b1 --bytes 2:2 --order little --signed --period 20000 --phase 0 -o wheel.csv 2>wheel.report
    for name in speed wheel; do
        same "canlog: $name.csv" "$example/$name.csv" "$name.csv"
        check_the_bound "$name"
    done
}

# The run takes the recording with the bound that the report names, and refuses it with one less.
check_the_bound() { # SENSOR
    local bound each wanted='' status=''
    bound=$(sed -n 's/^this recording needs a bound of //p' "$1.report")
    for each in "$bound" "$((bound - 1))"; do
        sed "/\"name\":\"$1\"/s/\"bound\":850/\"bound\":$each/" "$example/graph.json" >graph.json
        "$PTIDES" run graph.json >/dev/null 2>notes
        status="$status $? $(cut -d ' ' -f 1,2 notes)"
        wanted="$wanted $([ "$each" = "$bound" ] && echo '0 ' || echo "4 late $1")"
    done
    equal "canlog: the bound of $1" "$wanted" "$status"
}

# log2asc reads the same frames: the same values, and the same times after the first frame of the log.
check_log2asc() {
    is_there log2asc || { skip "frames as log2asc reads them, since there is no log2asc"; return; }
    log2asc -I "$example/drive.log" -O drive.asc can0 || fail "log2asc ends with a fault"
    python3 - drive.asc >asc.all <<'PYTHON'
import sys
for line in open(sys.argv[1]):
    words = line.split()
    if len(words) > 6 and words[2] in ("A0", "B1") and words[4] == "d":
        data = [int(word, 16) for word in words[6:]]
        value = 2 * (data[0] * 256 + data[1]) if words[2] == "A0" else data[2] + data[3] * 256
        print(words[2], round(float(words[0]) * 1000000), value)
PYTHON
    # The first frame of the log is the first of 0A0, and log2asc counts from it.
    first=$(sed -n '2s/^[0-9]*,\([0-9]*\),.*/\1/p' "$example/speed.csv")
    { sed 1d "$example/speed.csv" | awk -F, -v first="$first" '{ print "A0", $2 - first, $3 }'
      sed 1d "$example/wheel.csv" | awk -F, -v first="$first" '{ print "B1", $2 - first, $3 }'; } | sort >ours
    sort asc.all >theirs
    same "canlog: the frames that log2asc reads" theirs ours
    equal "canlog: all frames are there" 153 "$(wc -l <ours)"
}

check_candump() {
    cat >a.log <<'LOG'
(10.000100) can0 123#0102FF80
(10.000200) can1 123#0000
(10.010250) can0 123#FFFEFF80 R
(10.020300123) can0 123##1FFFDFF80
(10.030000) can0 00000123#00FF
(10.030400) can0 123#R4
(10.040999) can0 123#7fff0180_9
LOG
    local words=(candump a.log --id 123 --bus can0 --latency 100)
    rows_are "two bytes, the greatest first" "0,100,258 10150,10250,65534 20200,20300,65533 40899,40999,32767" "${words[@]}" --bytes 0:2 --order big
    rows_are "two bytes, the least first" "0,100,513 10150,10250,65279 20200,20300,65023 40899,40999,65407" "${words[@]}" --bytes 0:2 --order little
    rows_are "with a sign" "0,100,258 10150,10250,-2 20200,20300,-3 40899,40999,32767" "${words[@]}" --bytes 0:2 --order big --signed
    rows_are "bits" "0,100,15 10150,10250,15 20200,20300,15 40899,40999,0" "${words[@]}" --bytes 2:1 --bits 4:4
    rows_are "bits with a sign" "0,100,-1 10150,10250,-1 20200,20300,-1 40899,40999,0" "${words[@]}" --bytes 2:1 --bits 4:4 --signed
    rows_are "an extended identifier" "29900,30000,255" candump a.log --id 00000123 --latency 100 --bytes 0:2 --order big
    rows_are "a shift" "0,100,-128 10150,10250,-128 20200,20300,-128 40899,40999,-128" "${words[@]}" --bytes 3:1 --scale=-1/2 --shift=-64
    rows_are "rounded away from 0 at a half" "0,100,-1 10150,10250,-52 20200,20300,-52 40899,40999,-26" "${words[@]}" --bytes 0:1 --scale=-1/5 --round --shift=-1/2
    rows_are "a part" "10150,10250,2" "${words[@]}" --bytes 0:1 --from 10000 --to 15000 --scale 0.1 --shift=-23.5
    rows_are "a zero" "90000,100100,1 110000,110250,255 120000,120300,255 140000,140999,127" "${words[@]::6}" --bytes 0:1 --zero 9.9 \
        --period 10000 --phase 0 --latency 200
    rows_are "a phase" "99000,100100,1 109000,110250,255 119000,120300,255 139000,140999,127" "${words[@]::6}" --bytes 0:1 --zero 9.9 --period 10000 --phase 9000
}

check_csv() {
    printf 't;name;v\n0,5;oil;-1,5\n0,7;fuel;9\n1,25;oil;\n1,5;oil;2\n' >decimals.csv
    rows_are "a table with semicolons" "499000,500000,-15 1499000,1500000,20" csv decimals.csv --stamp t --unit s --value v --where name=oil \
        --delimiter ';' --decimal , --scale 10 --latency 1000
    printf '\xef\xbb\xbfmeasured,logged,"a ""b"""\r\n1.5,2.25,7\r\n3,3e0,"-8"\r\n' >quoted.csv
    rows_are "times of its own" "1500,2250,7 3000,3000,-8" csv quoted.csv --stamp logged --time measured --unit ms --value 'a "b"'
    printf 's\tv\n1001\t1\n2999\t2\n' >tabs.csv
    rows_are "nanoseconds, cut" "1,1,1 2,2,2" csv tabs.csv --stamp s --unit ns --value v --delimiter tab --latency 0
}

# A dump by hand: 10 ns, scopes, a range, an identifier that is a `#`, an integer, and changes that are none.
check_vcd() {
    cat >hand.vcd <<'VCD'
$comment none $end $timescale
 10 ns $end
$scope module a $end $scope module b $end $var integer 8 # n $end $upscope $end
$var wire 4 % w [3:0] $end $upscope $end $var event 1 e ring $end $enddefinitions $end
$dumpvars b11111011 # bz % $end
#150 b101 # b1111 %
#250 1e
#399 b11111111 # $comment 0% $end
#500 b0 #
b1 %
VCD
    rows_are "VCD: an integer" "0,0,-5 1,1,5 3,3,-1 5,5,0" vcd hand.vcd --signal a.b.n --latency 0
    rows_are "VCD: a wire" "1,1,15 5,5,1" vcd hand.vcd --signal w --latency 0
    rows_are "VCD: a wire with a sign" "1,1,-1 5,5,1" vcd hand.vcd --signal w --latency 0 --signed
    rows_are "VCD: an event" "1,2,1" vcd hand.vcd --signal ring --latency 1
}

# What iverilog dumps: picoseconds, unknown values, a sign, a real number.
check_iverilog() {
    is_there iverilog || { skip "a dump of iverilog, since there is no iverilog"; return; }
    cat >bench.v <<'VERILOG'
`timescale 1ns/1ps
module bench;
    reg signed [15:0] level;
    reg [7:0] flags;
    real heat;
    integer whole;
    initial begin
        $dumpfile("bench.vcd");
        $dumpvars(0, bench);
        #2000 level = -5; flags = 8'h80; heat = 1.5; whole = -7;
        #1500 level = 300; flags = 8'bx; heat = -0.25; whole = 8;
        #500 level = -300; flags = 8'h01;
        #1 $finish;
    end
endmodule
VERILOG
    iverilog -o bench.vvp bench.v && vvp bench.vvp >/dev/null
    rows_are "iverilog: with a sign" "2,2,-5 3,3,300 4,4,-300" vcd bench.vcd --signal level --signed --latency 0
    rows_are "iverilog: without" "2,2,128 4,4,1" vcd bench.vcd --signal bench.flags --latency 0
    rows_are "iverilog: an integer" "2,2,-7 3,3,8" vcd bench.vcd --signal whole --latency 0
    rows_are "iverilog: a real number" "2,2,150 3,3,-25" vcd bench.vcd --signal heat --latency 0 --scale 100 --from 1
}

# What wave writes of the rows that were seen gives the rows again: stamps and values; and the times, by the rule.
check_there_and_back() {
    local folder name platform sensor file blocks
    for folder in "$top"/examples/*/; do
        name=$(basename "$folder")
        [ -e "$folder/graph.json" ] || continue
        mapfile -t blocks < <(blocks_of "$folder")
        (cd -- "$folder" && "$top/tools/ptides-wave" graph.json "${blocks[@]}" --vcd "$work/$name.vcd" 2>/dev/null)
        while read -r platform sensor file; do
            "$rows" vcd "$name.vcd" --signal "seen.$platform.$sensor" --latency 0 2>/dev/null | cut -d , -f 2,3 >found
            cut -d , -f 2,3 "$folder/$file" >wanted
            same "$name: $file from the VCD of wave" wanted found
        done < <(python3 -c 'import json, sys
for actor in json.load(open(sys.argv[1]))["actors"]:
    if actor["kind"] == "sensor": print(actor["platform"], actor["name"], actor["file"])' "$folder/graph.json")
    done
    "$rows" vcd governor.vcd --signal seen.plant.speed --period 1000 --phase 0 >found 2>/dev/null
    same "governor: the whole of speed.csv from the VCD" "$top/examples/governor/speed.csv" found
}

# The logs of examples/network, and the air file that they give.
check_the_network() {
    local network=$top/examples/network words=(air plant.log panel.log --sender 0C8=up)
    mkdir network && cp -- "$network"/*.py "$network/speed.csv" network && (cd network && python3 ./record.py)
    same "network: plant.log is what record.py writes" "$network/plant.log" network/plant.log
    same "network: panel.log" "$network/panel.log" network/panel.log
    (cd network && "$rows" "${words[@]}" --received-lag panel=35 -o air.csv 2>report)
    same "network: air.csv" "$network/air.csv" network/air.csv
    equal "network: the report" "389 35" "$(sed -n 's/^this recording needs a delay of \([0-9]*\) for the link of up$/\1/p; s/^and a clock error of \([0-9]*\) .*/\1/p' network/report |
        tr '\n' ' ' | sed 's/ $//')"
    # Whichever clock true time is counted from, transits are the same.
    (cd network && "$rows" "${words[@]}" --received-lag panel=1035 --sent-lag plant=1000 2>/dev/null) | sed 's/^lag.*/lag/' | uniq >found
    sed 's/^lag.*/lag/' "$network/air.csv" >wanted
    same "network: other lags" wanted found
}

# air_is WHAT ROWS SENT RECEIVED WORD..: two logs give these rows, parted by spaces.
air_is() {
    printf '%b' "$3" >sent.log
    printf '%b' "$4" >received.log
    equal "$1" "what,name,value${2:+ $2}" "$("$rows" air sent.log received.log "${@:5}" 2>notes | tr '\n' ' ' | sed 's/ $//')"
}

refuses_air() { # WHAT LINE SENT RECEIVED WORD..
    printf '%b' "$3" >sent.log
    printf '%b' "$4" >received.log
    refuses "air: $1" "ptides rows: $2" "$rows" air sent.log received.log "${@:5}"
}

check_air() {
    local sent='(5.000100) can0 1A0#01\n(5.000200) can0 1A1#AA\n(5.000300) can0 1A0#02\n(5.000350) can0 1A0#R\n'
    local received='(5.000140) can1 1A0#01\n(5.000260) can1 1A1#AA\n(5.000299) can1 7FF#\n(5.000301) can1 1A0#02\n'
    air_is "air: one sender" "transit,up,40 transit,up,1" "$sent" "$received" --sender 1A0=up
    air_is "air: two senders, in the order of sending" "transit,up,40 transit,b,60 transit,up,1" "$sent" "$received" --sender 1A1=b --sender 0x1a0=up
    air_is "air: a lag behind" "lag,q,7 transit,up,47 transit,up,8" "$sent" "$received" --sender 1A0=up --received-lag q=7
    air_is "air: two lags" "lag,p,9 lag,q,8 transit,up,39 transit,up,0" "$sent" "$received" --sender 1A0=up --received-lag q=8 --sent-lag p=9
    air_is "air: a lag of 0" "lag,q,0 transit,up,40 transit,up,1" "$sent" "$received" --sender 1A0=up --received-lag q=0
    air_is "air: nanoseconds, a begun microsecond counts" "transit,up,2" '(1.000000001) can0 1A0#\n' '(1.000001002) can0 1A0#\n' --sender 1A0=up
    air_is "air: other data" "transit,up,40 transit,up,1" "$sent" "${received/1A0#01/1A0#11}" --sender 1A0=up --other-data
    air_is "air: one bus" "transit,up,90" '(5.000100) can0 1A0#01\n(5.000300) can1 1A0#02\n' '(5.000140) can1 1A0#02\n(5.000190) can0 1A0#01\n' --sender 1A0=up --bus can0
    refuses_air "no sender" 'the following arguments are required: --sender' "$sent" "$received"
    refuses_air "no identifier" 'argument --sender: `up=1A0` is not ID=SENDER, as 0C8=up' "$sent" "$received" --sender up=1A0
    refuses_air "no name" 'argument --sender: `1A0=a b` is not ID=SENDER, as 0C8=up' "$sent" "$received" --sender '1A0=a b'
    refuses_air "a sender twice" '--sender names up twice' "$sent" "$received" --sender 1A0=up --sender 1A1=up
    refuses_air "an identifier twice" '--sender names 1A0 twice' "$sent" "$received" --sender 1A0=up --sender 0x1a0=b
    refuses_air "no lag" 'argument --sent-lag: `p=-5` is not PLATFORM=MICROSECONDS, as panel=35' "$sent" "$received" --sender 1A0=up --sent-lag p=-5
    refuses_air "one platform twice" '--sent-lag and --received-lag both name p' "$sent" "$received" --sender 1A0=up --sent-lag p=0 --received-lag p=1
    refuses_air "before it was sent" 'received.log:4: frame 2 of 1A0 was received 1 us before it was sent (sent.log:3): state the lags of the two clocks with --sent-lag and --received-lag' \
        "$sent" "$received" --sender 1A0=up --sent-lag p=2
    refuses_air "other data" 'received.log:1: frame 1 of 1A0 has the data 02, and 01 was sent (sent.log:1): is a frame missing in one of the logs?' \
        "$sent" '(5.000140) can1 1A0#02\n' --sender 1A0=up
    refuses_air "a frame that was lost" 'sent.log:3: frame 2 of 1A0 is in this log alone: cut both logs so that they have the same frames' \
        "$sent" '(5.000140) can1 1A0#01\n' --sender 1A0=up
    refuses_air "a frame that wasn't sent" 'received.log:2: frame 2 of 1A0 is in this log alone: cut both logs so that they have the same frames' \
        '(5.000100) can1 1A0#01\n' '(5.000140) can1 1A0#01\n(5.000150) can1 1A0#01\n' --sender 1A0=up
    refuses_air "no frame" 'received.log: no frame of 1A1; the identifiers in it are 1A0' "$sent" '(5.000140) can1 1A0#01\n' --sender 1A1=up
    refuses_air "another line" 'received.log:1: not a line of a candump log (candump -l or candump -L)' "$sent" 'can0 1A0 [1] 01\n' --sender 1A0=up
    refuses_air "too long" 'received.log:1: frame 1 of 1A0 took 1000000000000001 us: too long' '(0.000000) can0 1A0#\n' '(1000000000.000001) can0 1A0#\n' --sender 1A0=up
    refuses_air "no row" 'there is no row 3: the rows are 1 to 2' "$sent" "$received" --sender 1A0=up --row 3
    refuses "air: no file" 'ptides rows: cannot read none.log: No such file or directory' "$rows" air none.log received.log --sender 1A0=up
    python3 -c 'for n in range(100001): print(f"({n // 1000000 + 1}.{n % 1000000:06}) can0 123#00")' >sent.log
    refuses "air: too many rows" 'ptides rows: sent.log: 100001 rows, and an air file has at most 100000; cut the logs, or allow them: `--claims 200001`' "$rows" air sent.log sent.log --sender 123=up
}

check_refusals() {
    local log=(candump bad.log --id 123 --bytes 0:1)
    refuses "no rule" 'ptides rows: no rule for `time`: give --period and --phase, or --latency (ptides rows -h)' "$rows" "${log[@]}"
    refuses "half a rule" 'ptides rows: --period and --phase go together' "$rows" "${log[@]}" --period 10
    refuses "no words" 'ptides rows: the following arguments are required: KIND' "$rows"
    refuses "no file" 'ptides rows: cannot read bad.log: No such file or directory' "$rows" "${log[@]}" --latency 0
    refuses "no order" 'ptides rows: several bytes need --order big or --order little' "$rows" "${log[@]::4}" --bytes 0:2 --latency 0
    refuses "no identifier" 'ptides rows: --id 12G is not an identifier in hexadecimal digits' "$rows" candump bad.log --id 12G --bytes 0:1 --latency 0
    refuses_log "another line" ':2: not a line of a candump log (candump -l or candump -L)' '(1.000000) can0 123#00\n can0  123 [1] 00\n' --latency 0
    refuses_log "a short frame" ':1: the frame has 0 bytes, and --bytes needs 1' '(1.000000) can0 123#\n' --latency 0
    refuses_log "no frame" ': no frame of 123; the identifiers in it are 124, 7FF' '(1.000000) can0 7FF#00\n(1.000000) can0 124#00\n' --latency 0
    refuses_log "seen falls" ':3: seen falls: 250 after 300 of line 1' '(1.000300) can0 123#00\n(1.000000) can0 124#00\n(1.000250) can0 123#00\n' --latency 0
    refuses_log "one time" ':2: two rows of one time: 1000 is also the time of line 1; --phase 999 gives each row a time of its own (as do those from 1 to 999), and --last takes the last of them' '(1.001000) can0 123#00\n(1.001999) can0 123#00\n' --period 1000 --phase 0
    refuses_log "one stamp" ':2: two rows of one time: 0 is also the time of line 1; --last takes the last of them' '(1.001000) can0 123#00\n(1.001000) can0 123#00\n' --latency 1000
    refuses_log "below 0" ':1: time -1, seen 999: below 0; choose a smaller --zero, or begin later with --from' '(1.000999) can0 123#00\n' --latency 1000
    refuses_log "no whole value" ':2: the value 0.7 is not whole: choose another --scale, or --round' \
        '(1.001000) can0 123#0A\n(1.002000) can0 123#07\n' --latency 0 --scale 0.1
    refuses_log "64 bits" ':1: the value 9223372036854775808 does not fit 64 bits' '(1.001000) can0 123#01\n' --latency 0 --scale 9223372036854775808
    refuses_log "too large" ':1: time 1000000000000000001, seen 1000000000000000001: too large; choose a --zero' \
        '(1000000000000.000001) can0 123#01\n' --latency 0 --zero 0
    refuses_log "too large a time" ':1: time 1000000000000001, seen 1000000000000001: too large; choose a --zero' \
        '(1000000000.000001) can0 123#01\n' --latency 0 --zero 0
    refuses_log "none in the part" ': no value is in it, or none from --from to --to' '(1.000000) can0 123#01\n' --latency 0 --from 1
    refuses_log "not UTF-8" '' '\0377\0376' --latency 0
    refuses_table "time falls" 'bad.csv:3: time falls: 4000 after 5000 of line 2' 't,v,m\n5,1,5\n6,2,4\n' --unit ms --time m
    refuses_table "seen before time" 'bad.csv:2: seen 5 is before its time 6' 't,v,m\n5,1,6\n' --unit us --time m
    refuses_table "no such column" 'bad.csv: no column `v`; its columns are t, w' 't,w\n5,1\n' --unit us --latency 0
    refuses_table "no number" 'bad.csv:3: column v: `NaN` is no number; --missing NaN passes over such cells' 't,v\n5,1\n6,NaN\n' --unit us --latency 0
    refuses_table "two rules" '--time does not go with --period, --phase or --latency' 't,v\n5,1\n' --unit us --latency 0 --time t
    refuses_dump "no timescale" ': not a VCD file with a timescale' '$enddefinitions $end\n'
    refuses_dump "no dump" ':1: not the head of a VCD file' 'time,seen,value\n1,2,3\n'
    refuses_dump "no signal" ': no signal is called a: m.b' '$timescale 1us $end $scope module m $end $var wire 1 ! b $end $enddefinitions $end\n'
    refuses_dump "no value" ':2: b12 is no value' '$timescale 1us $end $var wire 8 ! a $end $enddefinitions $end\n#1 b12 !\n'
    refuses_dump "no value of it" ': no value is in it, or none from --from to --to' '$timescale 1us $end $var wire 8 ! a $end $enddefinitions $end\n#1 bx !\n'
    python3 -c 'for n in range(100001): print(f"({n // 1000000 + 1}.{n % 1000000:06}) can0 123#00")' >bad.log
    refuses "too many rows" 'ptides rows: bad.log:100001: more than 100000 rows; choose a part with --from and --to: --to 99999 takes the first rows that fit; all are 100001 rows, so 2 parts or more, or `--claims 200001`' \
        "$rows" "${log[@]}" --latency 0
    "$rows" "${log[@]}" --latency 0 --to 99999 2>/dev/null | wc -l >found
    equal "a part of it" 100001 "$(<found)"
    "$rows" "${log[@]}" --latency 0 --claims 200001 2>/dev/null | wc -l >found
    equal "all of it" 100002 "$(<found)"
}

refuses_log() { # WHAT LINE LOG WORD..
    printf '%b' "$3" >bad.log
    if [ -z "$2" ]; then
        refuses "$1" 'ptides rows: cannot read bad.log: it is not UTF-8' "$rows" candump bad.log --id 123 --bytes 0:1 "${@:4}"
    else
        refuses "$1" "ptides rows: bad.log$2" "$rows" candump bad.log --id 123 --bytes 0:1 "${@:4}"
    fi
}

refuses_table() { # WHAT LINE TABLE WORD..
    printf '%b' "$3" >bad.csv
    refuses "$1" "ptides rows: $2" "$rows" csv bad.csv --stamp t --value v "${@:4}"
}

refuses_dump() { # WHAT LINE DUMP
    printf '%b' "$3" >bad.vcd
    refuses "$1" "ptides rows: bad.vcd$2" "$rows" vcd bad.vcd --signal a --latency 0
}

# The line of a late row names the row, and --row the frame.
check_the_frame() {
    sed 's/"bound":850/"bound":700/' "$example/graph.json" >graph.json
    "$PTIDES" run graph.json 2>notes
    equal "canlog: a bound of 700" "4 late speed row 39, seen 780823 past 780700" "$? $(<notes)"
    "$rows" candump drive.log --id 0A0 --bytes 0:2 --order big --scale 2 --period 20000 --phase 0 --row 39 >found
    equal "canlog: the frame of row 39" "drive.log:$(grep -n 780823 drive.log | sed 's/:/: /')" "$(sed -n 2p found)"
}

check_the_example
check_log2asc
check_candump
check_csv
check_vcd
check_iverilog
check_there_and_back
check_the_network
check_air
check_refusals
check_the_frame
if "$rows" -h | grep -q '^example:'; then pass; else fail "-h has no example"; fi
if python3 -c 'import ast, sys; ast.parse(open(sys.argv[1]).read(), feature_version=(3, 9))' "$rows"; then pass; else fail "not for Python 3.9"; fi
page docs/RECORDINGS.md .
page examples/canlog/README.md examples/canlog
finish
