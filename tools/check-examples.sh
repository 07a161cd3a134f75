#!/usr/bin/env bash
# Runs all examples and compares what they give with what is stored, byte for byte:
#
#     tools/check-examples.sh [PROGRAM]        through ./ptides if no program is named
#
# An example is a folder examples/NAME, examples/idioms/NAME or examples/refused/NAME, with these files. A copy of it is run.
#   words            the words, one a line; where there is none they are `run graph.json`. `--blocks FILE` in them is given to the other
#                    commands too
#   status           the status; where there is none it is 0
#   to               where standard output goes; where there is none it is compared
#   expected.csv     the standard output; where there is none, nothing may be written
#   expected.notes   the standard error; where there is none, nothing may be written
#   expected.log     what `run --log`, or `replay` if that is the first word, writes after the table
#   expected.check   what `check` writes
#   expected.migrate   what `migrate` writes
#   expected.slacks  what `slacks` writes
#   rows.py, make.py   write the sensor files that are stored, or a file that is too large to be stored
#
# It also checks the commands and outputs in the READMEs and in docs/AUDIT.md, docs/REPLAY.md and docs/TIMING.md, the schema, the manual
# page and the completion. What isn't installed is skipped by name. The last line is `N passed, M failed, K skipped`.
set -u
here=$(realpath -- "$0") || exit 1
. "${here%/*}/common.sh"
program=$top/ptides
[ $# -eq 0 ] || program=$(realpath -- "$(of_caller "$1")") || exit 1
passed=0
failed=0
skipped=0
make_work

pass() {
    passed=$((passed + 1))
}

fail() { # MESSAGE
    failed=$((failed + 1))
    echo "failed: $1"
}

skip() { # MESSAGE
    skipped=$((skipped + 1))
    echo "skipped: $1"
}

is_there() { # COMMAND
    command -v "$1" >/dev/null
}

# Runs the program in the copy of the example; leaves its output, its notes and its status.
start() { # WORD..
    (cd "$copy" && exec "$program" "$@") >"$work/output" 2>"$work/notes" </dev/null
    status=$?
}

# compare WHAT EXPECTED FOUND: without an expected file the found one has to be empty.
compare() {
    local expected=$2
    [ -e "$expected" ] || expected=/dev/null
    if cmp -s "$expected" "$3"; then
        pass
    else
        fail "$1"
        diff "$expected" "$3" | head -n 10
    fi
}

# compare_status WHAT WANTED
compare_status() {
    if [ "$status" -eq "$2" ]; then pass; else fail "$1: status $status instead of $2"; fi
}

# Runs the scripts of the example in its copy. What they write has to be what is stored, if it is stored.
make_files() { # NAME FOLDER
    local script file
    for script in "$copy"/*.py; do
        [ -e "$script" ] || continue
        is_there python3 || { skip "$1/${script##*/}, since python3 isn't there"; return 1; }
        (cd "$copy" && python3 "./${script##*/}") || fail "$1: ${script##*/} ends with a fault"
    done
    for file in "$copy"/*.csv; do
        [ ! -e "$2/${file##*/}" ] || compare "$1: ${file##*/} is what its script writes" "$2/${file##*/}" "$file"
    done
}

check_example() { # NAME FOLDER
    local name=$1 folder=$2 words=(run graph.json) blocks wanted=0 to
    copy=$work/copy
    rm -rf -- "$copy"
    cp -r -- "$folder" "$copy" && chmod -R u+rwX "$copy"
    make_files "$name" "$folder" || [ ! -e "$folder/make.py" ] || return
    [ ! -e "$folder/words" ] || mapfile -t words <"$folder/words"
    mapfile -t blocks < <(blocks_of "$folder")
    [ ! -e "$folder/status" ] || wanted=$(<"$folder/status")
    if [ -e "$folder/to" ]; then
        to=$(<"$folder/to")
        [ -e "$to" ] || { skip "$name, since $to isn't there"; return; }
        (cd "$copy" && exec "$program" "${words[@]}") >"$to" 2>"$work/notes" </dev/null
        status=$?
    else
        start "${words[@]}"
        compare "$name: expected.csv" "$folder/expected.csv" "$work/output"
    fi
    compare_status "$name" "$wanted"
    compare "$name: expected.notes" "$folder/expected.notes" "$work/notes"
    if [ -e "$folder/expected.csv" ]; then
        start meaning graph.json "${blocks[@]}"
        compare "$name: the meaning" "$folder/expected.csv" "$work/output"
    fi
    if [ -e "$folder/expected.log" ]; then
        [ "${words[0]}" = replay ] || words=(run graph.json "${blocks[@]}")
        start "${words[@]}" --log
        compare_status "$name with --log" "$wanted"
        cat "$folder/expected.csv" "$folder/expected.log" >"$work/whole"
        compare "$name: expected.log" "$work/whole" "$work/output"
        check_audit "$name"
    fi
    if [ -e "$folder/expected.check" ]; then
        start check graph.json "${blocks[@]}"
        compare_status "$name: check" 0
        compare "$name: expected.check" "$folder/expected.check" "$work/output"
    fi
    if [ -e "$folder/expected.migrate" ]; then
        start migrate graph.json "${blocks[@]}"
        compare_status "$name: migrate" 0
        compare "$name: expected.migrate" "$folder/expected.migrate" "$work/output"
    fi
    if [ -e "$folder/expected.slacks" ]; then
        start slacks graph.json "${blocks[@]}"
        compare_status "$name: slacks" 0
        compare "$name: expected.slacks" "$folder/expected.slacks" "$work/output"
    fi
    if [ -e "$folder/expected.csv" ]; then
        check_text "$name" "$folder/expected.csv"
    fi
}

# What the run wrote is a lawful log.
check_audit() { # NAME
    start audit graph.json "$work/whole" "${blocks[@]}"
    compare_status "$1: audit" 0
    echo lawful >"$work/wanted"
    compare "$1: audit" "$work/wanted" "$work/output"
}

# The text of a graph says the same as its file, and is the text of itself.
check_text() { # NAME TABLES
    start migrate graph.json "${blocks[@]}"
    mv -- "$work/output" "$copy/text.json"
    start migrate text.json "${blocks[@]}"
    compare "$1: the text of its text" "$copy/text.json" "$work/output"
    start meaning text.json "${blocks[@]}"
    compare "$1: the meaning of its text" "$2" "$work/output"
}

# The table of examples/refused/README.md has a row for each folder, with its status and its line.
check_table_of_refusals() {
    local folder name line
    for folder in examples/refused/*/; do
        name=$(basename "$folder")
        line=$(sed 's/|/\\|/g' "$folder/expected.notes")
        if grep -qxF "| [$name]($name) | $(<"$folder/status") | \`$line\` |" examples/refused/README.md; then
            pass
        else
            fail "examples/refused/README.md has no row of $name with its status and line"
        fi
    done
}

# docs/IDIOMS.md links each idiom's graph, and shows its table without the head.
check_page_of_idioms() {
    local folder page
    page=$(<docs/IDIOMS.md)
    for folder in examples/idioms/*/; do
        if [[ $page == *"(../${folder}graph.json)"*$'\n```text\n'"$(tail -n +2 "${folder}expected.csv")"$'\n```\n'* ]]; then
            pass
        else
            fail "docs/IDIOMS.md doesn't show the table of $folder"
        fi
    done
}

# Adds up what a script of this folder counted: its last line is `N passed, M failed`.
count() { # COMMAND..
    local found last
    found=$("$@")
    last=${found##*$'\n'}
    if [[ $last =~ ^([0-9]+)\ passed,\ ([0-9]+)\ failed$ ]]; then
        passed=$((passed + BASH_REMATCH[1]))
        failed=$((failed + BASH_REMATCH[2]))
        head -n -1 <<<"$found"
    else
        fail "$1 $2 ends with a fault"
        echo "$found"
    fi
}

check_documents() {
    if is_there python3; then
        TMPDIR=$work count python3 tools/check-transcripts.py "$program" README.md docs/{AUDIT,REPLAY,TIMING}.md examples/*/README.md
    else
        skip "the commands in the documents, since python3 isn't there"
    fi
    if ! is_there python3; then
        skip "schemas/graph.schema.json, since python3 isn't there"
    elif ! python3 -c 'import jsonschema' 2>/dev/null; then
        skip "schemas/graph.schema.json, since python3-jsonschema isn't there"
    else
        count python3 tools/check-schema.py
    fi
    if ! is_there mandoc; then
        skip "docs/ptides.1, since mandoc isn't there"
    elif ! mandoc -T lint docs/ptides.1 | grep -v ' referenced manual not found: Xr ptides-'; then
        # The manuals of the companions are found where all are installed; check-manuals.py sees to it that they are there.
        pass
    else
        fail 'docs/ptides.1: mandoc has something to say'
    fi
    check_manual examples/governor/expected.csv
    check_manual examples/missed/expected.check
    count tools/test-completion.sh
}

# The manual page shows what is in the file.
check_manual() { # FILE
    if [[ $(<docs/ptides.1) == *$'\n'"$(<"$1")"$'\n.Ed'* ]]; then
        pass
    else
        fail "docs/ptides.1 doesn't show $1"
    fi
}

for folder in examples/*/ examples/idioms/*/ examples/refused/*/; do
    folder=${folder%/}
    case $folder in
        examples/idioms | examples/refused) ;;
        *) check_example "${folder#examples/}" "$folder" ;;
    esac
done
check_table_of_refusals
check_page_of_idioms
check_documents
echo "$passed passed, $failed failed, $skipped skipped"
[ "$failed" -eq 0 ]
