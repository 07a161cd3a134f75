#!/usr/bin/env bash
# Makes the archive of a release, which is to be unpacked anywhere on Linux on x86-64:
#
#     tools/release.sh [FOLDER]        makes two files in FOLDER, or in out/
#
#   ptides-VERSION-linux-x86_64.tar.gz          a folder ptides-VERSION with all that tools/install.sh installs
#   ptides-VERSION-linux-x86_64.tar.gz.sha256   its SHA-256 digest, in a line that `sha256sum -c` reads
#
# The program is that of dist/. The same clone gives the same bytes, whoever makes them, where and when, by the same tar and gzip:
# names are sorted, all files are of one time and of user and group 0, and what was built in the clone plays no part.
set -u
set -o pipefail
here=$(realpath -- "$0") || exit 1
. "${here%/*}/common.sh"
# The beginning of 1980, the first time that every kind of archive can state.
TIME=@315532800

fail() { # MESSAGE
    echo "release: $1" >&2
    exit 1
}

if [ $# -gt 1 ] || [[ ${1-} == -* ]]; then
    fail 'usage: tools/release.sh [FOLDER]'
fi
make_work
folder=$(of_caller "${1:-$top/out}")
version=$(cat VERSION) || fail 'the file VERSION is missing'
case $(./ptides --version) in
    *$'\nprogram dist/ptides, shipped') ;;
    *$'\nprogram out/ptides, built here') fail 'the program of dist/ is released, and out/ptides goes before it here: remove out/ptides' ;;
    *) fail 'dist/ has no program of these sources: tools/ship.sh ships one' ;;
esac
# What is installed can be read by everybody, whoever makes the archive, and no setting of tar or gzip changes a byte.
umask 022
unset TAR_OPTIONS GZIP
tools/install.sh "$work/ptides-$version" >"$work/lines" || fail "the archive can't be put together"
archive=ptides-$version-linux-x86_64.tar.gz
{
    tar -C "$work" --format=ustar --sort=name --mtime="$TIME" --owner=0 --group=0 --numeric-owner -cf - "ptides-$version" |
        gzip -n -9 >"$work/$archive" &&
        (cd "$work" && sha256sum "$archive" >"$archive.sha256") &&
        mkdir -p -- "$folder" &&
        mv -f -- "$work/$archive" "$work/$archive.sha256" "$folder"
} || fail "the archive can't be written to $folder"
cat "$folder/$archive.sha256"
