#!/usr/bin/env bash
# Checks tools/ptides-wave on all examples: with vcd2fst and back, in GTKWave, with pandas and xmllint; and on graphs whose waves were
# worked by hand. The last line is `N passed, M failed, K skipped`.
#
# What is in single quotes is meant as it is.
# shellcheck disable=SC2016
# shellcheck source-path=SCRIPTDIR source=counting.sh
. "$(dirname -- "$(realpath -- "$0")")/counting.sh" || exit 1
is_there python3 || { skip "all of wave, since there is no python3"; finish; exit; }
wave=$top/tools/ptides-wave
waves=$top/tools/tests/waves.py
cd -- "$work" || exit 1
pandas=
for each in python3 /usr/bin/python3; do
    [ -n "$pandas" ] || ! "$each" -c 'import pandas' 2>/dev/null || pandas=$each
done
cat >view.tcl <<'TCL'
foreach name [gtkwave::getDisplayedSignals] { puts "shown $name" }
flush stdout
exit
TCL

# A file that isn't there counts as an empty one.
stored() { # FILE
    if [ -e "$1" ]; then cat -- "$1"; fi
}

check_example() { # FOLDER
    local name wanted=0 status blocks=()
    name=$(basename "$1")
    [ ! -e "$1/status" ] || wanted=$(<"$1/status")
    mapfile -t blocks < <(blocks_of "$1")
    (cd -- "$1" && "$wave" graph.json "${blocks[@]}" --vcd "$work/e.vcd" --csv "$work/e.csv" --svg "$work/e.svg" 2>"$work/notes")
    status=$?
    equal "$name: status" "$wanted" "$status"
    equal "$name: notes" "$(stored "$1/expected.notes")" "$(<notes)"
    python3 "$waves" csv-tables e.csv "$1/graph.json" >found
    same "$name: the tables in the CSV" "$1/expected.csv" found
    cut -d , -f 1,2,4 "$1/expected.csv" >wanted
    python3 "$waves" vcd-tables e.vcd "$1/graph.json" >found
    same "$name: the tables in the VCD" wanted found
    if [ -e "$1/expected.log" ]; then
        grep -v -e '^turn,' -e '^log$' "$1/expected.log" >wanted
        python3 "$waves" csv-log e.csv >found
        same "$name: the log in the CSV" wanted found
    fi
    check_with_tools "$name"
}

has_dumps() { is_there vcd2fst && is_there fst2vcd; }
has_view() { is_there gtkwave && is_there xvfb-run; }
has_dumps || skip "vcd2fst and back, since there is no vcd2fst or fst2vcd"
has_view || skip "the views in GTKWave, since there is no gtkwave or xvfb-run"
is_there xmllint || skip "the XML of the pictures, since there is no xmllint"
[ -n "$pandas" ] || skip "the tables in pandas, since it is not installed"

check_with_tools() { # NAME
    if has_dumps; then
        vcd2fst e.vcd e.fst >/dev/null && fst2vcd e.fst -o back.vcd >/dev/null
        python3 "$waves" changes e.vcd >wanted
        python3 "$waves" changes back.vcd >found
        same "$1: vcd2fst and back" wanted found
    fi
    if is_there xmllint; then
        if xmllint --noout e.svg; then pass; else fail "$1: the SVG is not XML"; fi
    fi
    if has_view; then
        grep -o '^[+{a-z].*' e.gtkw | sed 's/^+{.*} /shown /; t; s/^/shown /' >wanted
        timeout 60 xvfb-run -a gtkwave e.vcd e.gtkw -S view.tcl 2>/dev/null | grep '^shown ' >found
        same "$1: the signals that GTKWave shows" wanted found
    fi
    if [ -n "$pandas" ]; then
        equal "$1: pandas" "$(($(wc -l <e.csv) - 1)) records, 12 columns" "$("$pandas" -c 'import pandas
table = pandas.read_csv("e.csv", dtype={name: "Int64" for name in ("value", "reading", "deadline", "missed", "seen", "number", "output")})
print("%d records, %d columns" % table.shape)')"
    fi
}

# The governor, as docs/TIMING.md works it out: 2201 and 2951 are its readings.
check_by_hand() {
    (cd -- "$top/examples/governor" && "$wave" graph.json --vcd "$work/g.vcd")
    python3 "$waves" changes g.vcd >found
    printf '%s\n' 'events.panel.down 1500 -2' 'events.panel.down 2500 4' 'events.panel.down 3500 -3' 'events.panel.gov 2500 1' \
        'events.panel.gov 3500 0' 'events.panel.lead 3500 1' 'events.panel.lead 4500 0' >wanted
    grep -e '^events.panel.[dgl]' found >some
    same "governor: inner signals" wanted some
    printf '%s\n' 'fired.panel.valve 2951 1' 'fired.panel.valve 3951 0' 'fired.plant.up 1201 -2' 'fired.plant.up 2201 4' \
        'fired.plant.up 3201 -3' 'missed.panel.valve 0 0' 'missed.plant.up 0 0' 'seen.plant.speed 1150 98' 'seen.plant.speed 2050 104' \
        'seen.plant.speed 3190 97' >wanted
    grep -e '^fired.*[ve][ep] ' -e '^fired.plant.up' -e '^missed' -e '^seen' found >some
    same "governor: readings" wanted some
    (cd -- "$top/examples/lanes" && "$wave" graph.json --vcd "$work/l.vcd")
    python3 "$waves" changes l.vcd >found
    equal "lanes: each cell fires by itself" "fired.drill.inputs.out0 4051 104 fired.drill.inputs.out1 46001 85" \
        "$(grep -e 'fired.*out0 4051 ' -e 'fired.*out1 46001 ' found | tr '\n' ' ' | sed 's/ $//')"
    (cd -- "$top/examples/missed" && "$wave" graph.json --vcd "$work/m.vcd" --svg "$work/m.svg" 2>/dev/null)
    equal "missed: at 4401" "missed.boiler.valve 4401 1" "$(python3 "$waves" changes m.vcd | grep '^missed.boiler.valve [1-9]')"
    # 5 rows, 5 of pressure, high and panel and one of valve; deadlines of panel and valve, the last of panel after the end.
    equal "missed: the timeline" "event 16, deadline 5, seen 5, message 0, late 1" "$(python3 "$waves" svg-counts m.svg)"
    (cd -- "$top/examples/governor" && "$wave" graph.json --svg "$work/g.svg")
    equal "governor: the timeline" "event 22, deadline 5, seen 3, message 3, late 0" "$(python3 "$waves" svg-counts g.svg)"
}

# Two steps of one time, a name that a probe would have, the least value of 64 bits, and an actor with two outputs.
check_a_graph() {
    printf 'time,seen,value\n0,0,-9223372036854775808\n10,15,5\n' >s.csv
    cat >steps.json <<'JSON'
{"ptides":1,"until":100,"clock_error":0,"platforms":["p"],
 "actors":[{"name":"probe_0","platform":"p","kind":"sensor","file":"s.csv","bound":5},
  {"name":"later","platform":"p","kind":"delay","d":0},
  {"name":"both","platform":"p","kind":"merge","n":2},
  {"name":"ways","platform":"p","kind":"machine","start":0,"outputs":2,"rows":[{"state":0,"low":0,"high":9,"next":0,"emit":[1,7]}]},
  {"name":"out","platform":"p","kind":"actuator","slack":6}],
 "wires":[["probe_0",0,"later",0],["probe_0",0,"both",0],["later",0,"both",1],["probe_0",0,"ways",0],["both",0,"out",0]],"links":[]}
JSON
    "$wave" steps.json
    equal "steps: status" 0 "$?"
    python3 "$waves" changes steps.vcd | grep '^events' >found
    printf 'events.p.%s\n' 'both 0 -9223372036854775808' 'both 0 -9223372036854775808' 'both 10 5' 'both 10 5' 'later 0 -9223372036854775808' \
        'later 10 5' 'out 0 -9223372036854775808' 'out 0 -9223372036854775808' 'out 10 5' 'out 10 5' 'probe_0 0 -9223372036854775808' \
        'probe_0 10 5' 'ways.out1 10 7' >wanted
    same "steps: all steps of a time" wanted found
    if [ -e steps.gtkw ]; then pass; else fail "steps: no view"; fi
    "$wave" /dev/stdin --csv - --vcd stdin.vcd <steps.json >stdin.csv
    "$wave" steps.json --csv steps.csv
    same "a graph from standard input" steps.csv stdin.csv
    same "and its waves" steps.vcd stdin.vcd
}

# A graph with no room for probes, and one whose run with all of them would be too long.
check_limits() {
    python3 - <<'PYTHON'
import json
def graph(count, until):
    actors = [{"name": "s", "platform": "p", "kind": "sensor", "file": "s.csv", "bound": 5}]
    actors += [{"name": f"a{n}", "platform": "p", "kind": "scale", "num": 1, "den": 1} for n in range(count - 2)]
    actors += [{"name": "out", "platform": "p", "kind": "actuator", "slack": 6}]
    wires = [[before["name"], 0, after["name"], 0] for before, after in zip(actors, actors[1:])]
    return {"ptides": 2, "until": until, "clock_error": 0, "clock_errors": [], "platforms": ["p"], "actors": actors, "wires": wires, "links": []}
json.dump(graph(1024, 100), open("full.json", "w"))
json.dump(dict(graph(3, 10**6)), open("long.json", "w"))
PYTHON
    "$wave" full.json --csv full.csv 2>notes
    equal "1024 actors" "0 " "$? $(<notes)"
    equal "1024 actors: two events of each" "1024 2" "$(grep '^event' full.csv | cut -d , -f 3 | uniq -c | awk '{ print $1 }' | uniq -c | awk '{ print $1, $2 }')"
    "$wave" full.json --clock step:0:1 --csv full.csv 2>notes
    equal "1024 actors by another clock" "5 ptides wave: no inner signals: with an actuator on each output the graph is too large" "$? $(tail -n 1 notes)"
    equal "1024 actors: events of the actuator alone" "event,p,out 2" "$(grep '^event' full.csv | cut -d , -f 1-3 | uniq -c | awk '{ print $2, $1 }')"
    python3 -c 'print("time,seen,value"); [print(f"{n},{n},1") for n in range(50000)]' >s.csv
    "$wave" long.json --csv long.csv 2>notes
    equal "150000 firings" "0 " "$? $(<notes)"
    equal "150000 firings: all events" "150000" "$(grep -c '^event' long.csv)"
    "$wave" long.json --no-inner --csv - >found 2>notes
    equal "150000 firings, --no-inner" "0 50000 " "$? $(grep -c '^event' found) $(<notes)"
}

# What ptides refuses: its line, its status, and no file. What wave adds, of a run that is too long, begins with its name.
check_refusals() {
    local folder status
    for folder in "$top"/examples/refused/*/; do
        if [ ! -e "$folder/graph.json" ] || [ -e "$folder/words" ] || [ -e "$folder/to" ] || [ -e "$folder/make.py" ]; then continue; fi
        (cd -- "$folder" && "$wave" graph.json --vcd "$work/refused.vcd" >"$work/found" 2>"$work/notes")
        status=$?
        equal "$(basename "$folder")" "$(<"$folder/status") $(<"$folder/expected.notes")" "$status $(grep -v '^ptides wave: ' notes; cat found)"
    done
    if [ -e refused.vcd ]; then fail "a refused graph has waves"; else pass; fi
    refuses "no graph" 'ptides wave: cannot read none.json: No such file or directory' "$wave" none.json
    refuses "no words" 'ptides wave: the following arguments are required: GRAPH' "$wave"
    refuses "another word" 'ptides wave: unrecognized arguments: --png' "$wave" steps.json --png
    refuses "no part" 'ptides wave: --from has to be less than --to' "$wave" steps.json --svg - --from 5 --to 5
    printf 'time,seen,value\n' >s.csv
    refuses "no folder" 'ptides wave: cannot write none/a.vcd: No such file or directory' "$wave" steps.json --vcd none/a.vcd
    refuses "no program" 'ptides wave: there is no program ./none' env PTIDES=./none "$wave" steps.json
    "$wave" steps.json --csv - --svg empty.svg --vcd empty.vcd >found
    equal "no events: status and records" "0 1" "$? $(wc -l <found)"
    [ ! -e /dev/full ] || equal "a full disk" $'ptides wave: cannot write standard output: No space left on device\n1' \
        "$("$wave" steps.json --csv - 2>&1 >/dev/full; echo $?)"
}

# The picture that is stored with an example is what wave draws now.
check_picture() { # EXAMPLE OPTION..
    (cd -- "$top/examples/$1" && "$wave" graph.json --svg - "${@:2}") >found
    same "$1: timeline.svg" "$top/examples/$1/timeline.svg" found
}

check_stored_pictures() {
    check_picture governor
    check_picture brake --from 108000 --to 128000
    check_picture stand --from 549000 --to 567000
    check_picture cruise --from 3205000 --to 3220000
    equal "each picture is compared" 4 "$(find "$top/examples" -name timeline.svg | wc -l | tr -d ' ')"
}

for folder in "$top"/examples/*/; do
    [ ! -e "$folder/graph.json" ] || check_example "${folder%/}"
done
check_by_hand
check_a_graph
check_limits
check_refusals
check_stored_pictures
if "$wave" -h | grep -q '^example:'; then pass; else fail "-h has no example"; fi
if python3 -c 'import ast, sys; ast.parse(open(sys.argv[1]).read(), feature_version=(3, 9))' "$wave"; then pass; else fail "not for Python 3.9"; fi
page examples/brake/README.md examples/brake
finish
