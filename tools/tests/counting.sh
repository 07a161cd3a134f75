# shellcheck shell=bash
# What the checks of rows, wave and bench share: they source it. It counts, makes a folder for the check, and names the program.
unset CDPATH
LC_ALL=C
export LC_ALL
set -u
here=$(realpath -- "${BASH_SOURCE[0]}") || exit 1
top=${here%/tools/tests/counting.sh}
export PTIDES=${PTIDES:-$top/ptides}
work=$(mktemp -d) && [ -n "$work" ] && work=$(realpath -- "$work") && [ -d "$work" ] || exit 1
remove_work() {
    chmod -R u+rwX "$work" 2>/dev/null
    rm -rf -- "$work"
}
trap remove_work EXIT
trap 'exit 129' HUP
trap 'exit 130' INT
trap 'exit 143' TERM
passed=0
failed=0
skipped=0

# The option of the formulas that an example has, a word each line: its `words` name their file.
blocks_of() { # FOLDER
    [ ! -e "$1/words" ] || sed -n '/^--blocks$/{p;n;p;}' "$1/words"
}

pass() {
    passed=$((passed + 1))
}

fail() { # MESSAGE
    failed=$((failed + 1))
    echo "failed: $1"
}

skip() { # MESSAGE
    skipped=$((skipped + 1))
    echo "skipped: $1"
}

is_there() { # COMMAND
    command -v "$1" >/dev/null
}

# same WHAT EXPECTED FOUND: two files have the same bytes.
same() {
    if cmp -s -- "$2" "$3"; then
        pass
    else
        fail "$1"
        diff -- "$2" "$3" | head -n 10
    fi
}

# equal WHAT EXPECTED FOUND: two texts are the same.
equal() {
    if [ "$2" = "$3" ]; then pass; else fail "$1: $3 instead of $2"; fi
}

# refuses WHAT LINE COMMAND..: the command ends with status 1, writes this line on standard error and nothing on standard output.
refuses() {
    local what=$1 line=$2 status
    shift 2
    "$@" >"$work/refused.out" 2>"$work/refused.notes" </dev/null
    status=$?
    equal "$what" "status 1, $line" "status $status, $(cat -- "$work/refused.out" "$work/refused.notes")"
}

# Adds up what a program of tests counted: its last line is `N passed, M failed`, maybe with `, K skipped`.
count() { # COMMAND..
    local found last
    found=$("$@")
    last=${found##*$'\n'}
    if [[ $last =~ ^([0-9]+)\ passed,\ ([0-9]+)\ failed(,\ ([0-9]+)\ skipped)?$ ]]; then
        passed=$((passed + BASH_REMATCH[1]))
        failed=$((failed + BASH_REMATCH[2]))
        skipped=$((skipped + ${BASH_REMATCH[4]:-0}))
        head -n -1 <<<"$found"
    else
        fail "$* ends with a fault"
        echo "$found"
    fi
}

# copy FOLDER TARGET: a copy that can be written, also if the folder can't.
copy() {
    cp -r -- "$1" "$2" && chmod -R u+rwX "$2"
}

# page PAGE FOLDER: runs the commands of a page of the repository in a folder of a copy of the examples, with `ptides` at its top.
# It is the launcher with the program that is checked, whether or not that is of these sources. Python finds the package.
page() {
    local place=$work/page
    rm -rf -- "$place"
    mkdir -- "$place" && copy "$top/examples" "$place/examples" || exit 1
    cat >"$place/ptides" <<'PTIDES'
#!/bin/sh
while [ "$1" = -C ]; do
    cd -- "$2" || exit 1
    shift 2
done
tool=$COMPANIONS/ptides-$1
if [ -e "$tool" ]; then
    shift
    exec "$tool" "$@"
fi
exec "$PTIDES" "$@"
PTIDES
    chmod +x "$place/ptides"
    COMPANIONS=$top/tools PYTHONPATH=$top/python count python3 "$top/tools/tests/console.py" "$top/$1" "$place/$2"
}

finish() {
    echo "$passed passed, $failed failed, $skipped skipped"
    [ "$failed" -eq 0 ]
}
