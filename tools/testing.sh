# shellcheck shell=bash
# What the tests of the shell scripts share: they count what they expect, and have a small repository, $place/repo, with a
# toolchain of its own in $place/bin, which "builds" a shell script and proves nothing. As tools/common.sh it is sourced by the
# script's own place, `here`.
# shellcheck disable=SC2034,SC2154

. "${here%/*}/common.sh"
# What is tested is which program the launcher gives to companions, if the caller names none.
unset PTIDES
# What is on the path can't have a colon.
case ${TMPDIR-} in
    *:*) TMPDIR=/tmp ;;
esac
make_work
place=$work/small
mkdir "$place"
passed=0
failed=0
skipped=0

# A repository with one crate, and an `rt` that counts its runs and leaves a program as the true one does. It also counts how
# often it is asked for its version, and leaves the numbers of its processes while it builds.
repository() {
    rm -rf -- "${place:?}"/*
    mkdir -p "$place"/{bin,repo/crates/ptides/src,repo/tools,caller}
    cp "$top/ptides" "$place/repo/ptides"
    cp "$top"/tools/{common,ship,sources-digest}.sh "$place/repo/tools"
    cp "$top/VERSION" "$place/repo"
    # What is copied from a clone that can't be written can't be written either.
    chmod -R u+w "$place/repo"
    echo 'ptides:' >"$place/repo/crates.txt"
    echo 'fn main() {}' >"$place/repo/crates/ptides/src/main.rt"
    echo 'proved with rattle-kit-1 logic 0' >"$place/repo/README.md"
    cat >"$place/bin/rt" <<'RT'
#!/usr/bin/env bash
if [ "$1" = version ]; then
    echo asked >>"$COUNTS.version"
    echo "${KIT:-rattle-kit-1 logic 0}"
    exit
fi
echo built >>"$COUNTS"
echo 'what the build prints'
sleep "${BUILD_SECONDS:-0}" &
echo "$$ $!" >"$COUNTS.running"
wait
[ -z "${BUILD_FAILS:-}" ] || exit 1
mkdir -p out
cat >out/ptides <<'PROGRAM'
#!/bin/sh
if [ "$2" = /dev/null/none ]; then
    echo 'read fault: graph' >&2
    exit 7
fi
echo "words:$# $*"
echo "folder:${PWD##*/}"
echo "a note" >&2
exit "${PROGRAM_STATUS:-0}"
PROGRAM
chmod +x out/ptides
shift 2
exec out/ptides "$@"
RT
    chmod +x "$place/bin/rt"
    : >"$place/counts"
    : >"$place/counts.version"
}

# Puts a program into dist/ that isn't the one that the toolchain builds, with its record.
shipped_repository() {
    repository
    cat >"$place/stand-in" <<'PROGRAM'
#!/bin/sh
if [ "$2" = /dev/null/none ]; then
    echo 'read fault: graph' >&2
    exit 7
fi
echo "shipped:$# $*"
exit "${PROGRAM_STATUS:-0}"
PROGRAM
    chmod +x "$place/stand-in"
    ship --built "$place/stand-in"
    : >"$place/counts.version"
}

ship() {
    (cd "$place/caller" && COUNTS=$place/counts PATH="$place/bin:$PATH" "$place/repo/tools/ship.sh" "$@") \
        >"$place/shipping" 2>&1
}

# Runs the launcher in the folder `caller`; leaves its output, its notes and its status.
start() {
    (cd "$place/caller" && COUNTS=$place/counts PATH="$place/bin:$PATH" "$place/repo/ptides" "$@") \
        >"$place/output" 2>"$place/notes"
    status=$?
}

# The same without a toolchain.
start_alone() {
    (cd "$place/caller" && PATH=/usr/bin:/bin "$place/repo/ptides" "$@") >"$place/output" 2>"$place/notes"
    status=$?
}

builds() {
    wc -l <"$place/counts" | tr -d ' '
}

askings() {
    wc -l <"$place/counts.version" | tr -d ' '
}

# expect WHAT WANTED FOUND
expect() {
    if [ "$2" = "$3" ]; then
        passed=$((passed + 1))
    else
        failed=$((failed + 1))
        printf 'failed: %s: wanted %s, found %s\n' "$1" "$2" "$3"
    fi
}

skip() { # MESSAGE
    skipped=$((skipped + 1))
    echo "skipped: $1"
}

# Runs a command; leaves its output, its notes and its status.
attempt() { # COMMAND..
    "$@" >"$work/output" 2>"$work/notes" </dev/null
    status=$?
}

# Expects of the last command this output, no notes and status 0.
expect_output() { # WHAT OUTPUT
    expect "$1: notes" '' "$(cat "$work/notes")"
    expect "$1: status" 0 "$status"
    expect "$1: output" "$2" "$(cat "$work/output")"
}

# Expects one line on standard error, with these words, and this status.
expect_refusal() { # WHAT STATUS WORDS
    expect "$1: status" "$2" "$status"
    expect "$1: output" '' "$(cat "$work/output")"
    expect "$1: one line" 1 "$(wc -l <"$work/notes" | tr -d ' ')"
    expect "$1: its words" 1 "$(grep -cF -- "$3" "$work/notes")"
}

# The clone without what was built in it: a copy that can be anywhere.
copy_of_the_clone() { # FOLDER
    mkdir -p -- "$1"
    tar --exclude=./.git --exclude=./out --exclude='./crates/*/out' -cf - . | (cd -- "$1" && tar -xf -)
}
