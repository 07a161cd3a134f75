#!/usr/bin/env bash
# Ships the built program: puts it into dist/, with a record of what it was built from, so that a new clone can run it at
# once. `./ptides` runs it only if the record is of this program and of the sources that are there.
#
#   tools/ship.sh                 proves and builds, and ships what was built
#   tools/ship.sh --built FILE    ships FILE, which was built from the sources as they are, and builds nothing
#   tools/ship.sh --check         checks that what is shipped is what the sources build: the record is of the sources and of
#                                 the program, and the program is crates/ptides/out/ptides, byte for byte. If it isn't,
#                                 since two builds can differ and do the same, it has to pass tools/check-examples.sh.
#                                 If nothing is shipped there is nothing to check
#
# The record, dist/ptides.record, has four lines: the version of the project (the file VERSION), the digest of the sources
# (tools/sources-digest.sh), the version line of the toolchain, and the program's sha256.
set -u
here=$(realpath -- "$0") || exit 1
. "${here%/*}/common.sh"
file=$(of_caller "${2:-}")
built=crates/ptides/out/ptides
shipped=dist/ptides
record=dist/ptides.record

fail() {
    echo "ship: $1" >&2
    exit 1
}

recorded() { # NAME
    sed -n "s/^$1 //p" "$record"
}

# One line with three numbers, as 0.2.0.
version_here() {
    grep -xE '[0-9]+\.[0-9]+\.[0-9]+' VERSION
}

sha256_of() { # FILE
    sha256sum <"$1" | cut -d ' ' -f 1
}

# Whether the file is a program that answers as `ptides` does if the graph is a file that can't exist.
answers() { # FILE
    local notes
    notes=$("$1" run /dev/null/none 2>&1 </dev/null)
    [ $? -eq 7 ] && [ "$notes" = 'read fault: graph' ]
}

build() {
    (cd crates/ptides && rt run -- run /dev/null/none) </dev/null
    [ $? -eq 7 ] || fail 'the program could not be built'
}

ship() { # FILE
    if ! [ -x "$1" ] || ! answers "$1"; then
        fail "$1 is no program that answers as ptides does"
    fi
    local version toolchain digest
    version=$(version_here) || fail 'the file VERSION has no version'
    toolchain=$(rt version) || fail 'rt version gives no version'
    digest=$(tools/sources-digest.sh "$toolchain") || fail 'the sources have no digest'
    { mkdir -p dist && cp -- "$1" "$shipped.new" && chmod 755 "$shipped.new" && mv -f "$shipped.new" "$shipped"; } ||
        fail 'the program could not be put into dist/'
    printf '%s\n' "version $version" "sources $digest" "toolchain $toolchain" "program $(sha256_of "$shipped")" >"$record"
    cat "$record"
    # In a clone these would be missing, and the digest another.
    git ls-files --others crates 2>/dev/null | grep -E '^crates/[^/]*/(src|specs|proofs)/' |
        sed 's/$/ goes into the digest and is not tracked by git/; s/^/ship: /' >&2
    return 0
}

check() {
    if [ ! -e dist ]; then
        echo 'ship: skipped, since nothing is shipped'
        return
    fi
    if ! [ -x "$shipped" ] || ! [ -r "$record" ]; then
        fail 'dist/ lacks the program or its record: tools/ship.sh makes both'
    fi
    [ "$(recorded version)" = "$(version_here)" ] || fail "$record is not of the version $(version_here): tools/ship.sh ships that"
    [ "$(recorded program)" = "$(sha256_of "$shipped")" ] || fail "$shipped is not the program of $record"
    local toolchain here
    toolchain=$(recorded toolchain)
    # Kits of one logic prove the same; what another one builds goes through the examples.
    ! here=$(rt version 2>/dev/null) || [ "${here#* }" = "${toolchain#* }" ] ||
        fail "$record names the toolchain $toolchain, and this is $here: tools/ship.sh ships what this one builds"
    [ "$(recorded sources)" = "$(tools/sources-digest.sh "$toolchain")" ] ||
        fail "$record is of other sources: tools/ship.sh ships what these build"
    grep -qF "$toolchain" README.md || fail "README.md doesn't name the toolchain of $record, $toolchain"
    if [ ! -x "$built" ]; then
        fail "$built isn't there to compare with: rt ci builds it"
    elif ! cmp -s "$built" "$shipped"; then
        echo "ship: $shipped isn't $built byte for byte, so it goes through the examples"
        tools/check-examples.sh "$shipped" || fail "$shipped doesn't answer as the examples say"
    fi
    echo 'ship: what is shipped is what the sources build'
}

case "$#:${1:-}" in
    0:) build && ship "$built" ;;
    2:--built) ship "$file" ;;
    1:--check) check ;;
    *) fail 'usage: tools/ship.sh [--built FILE | --check]' ;;
esac
