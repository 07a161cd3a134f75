#!/bin/sh
# Prints the digest of all that the program is built from: crates.txt, src/, specs/ and proofs/ of each crate, by name and
# content, and the toolchain's version line, as `rt version` prints it, which is this script's one word.
set -eu
for tool in realpath find sort xargs sha256sum cut; do
    command -v "$tool" >/dev/null || {
        echo "sources-digest: $tool is not on the path" >&2
        exit 1
    }
done
here=$(realpath -- "$0") || exit 1
. "${here%/*}/common.sh"
toolchain=${1?the version line of the toolchain is missing}
for folder in crates/*/src crates/*/specs crates/*/proofs; do
    [ ! -d "$folder" ] || set -- "$@" "$folder"
done
shift
{
    printf '%s\n' "$toolchain"
    find crates.txt "$@" ! -type d -print0 | sort -z | xargs -0 sha256sum
} | sha256sum | cut -d ' ' -f 1
