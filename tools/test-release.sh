#!/usr/bin/env bash
# Tests tools/release.sh: two builds give the same bytes, whoever makes them, where and when; the digest is right; and what is unpacked
# runs an example in an empty folder. The last line is `N passed, M failed, K skipped`.
set -u
here=$(realpath -- "$0") || exit 1
. "${here%/*}/testing.sh"

name=ptides-$(cat VERSION)
archive=$name-linux-x86_64.tar.gz
plain=$work/plain
other="$work/an other place"

# A copy of the clone whose program is recorded as that of its sources, which may be newer while somebody works on them.
shipped_copy() { # FOLDER
    copy_of_the_clone "$1"
    mkdir -p "$work/bin"
    printf '#!/bin/sh\necho "%s"\n' "$(sed -n 's/^toolchain //p' dist/ptides.record)" >"$work/bin/rt"
    chmod +x "$work/bin/rt"
    cp dist/ptides "$work/program"
    PATH="$work/bin:$PATH" "$1/tools/ship.sh" --built "$work/program" >/dev/null 2>&1
}

# As tar names it: rights, owner, time and path.
entries() { # ARCHIVE
    tar --numeric-owner --utc --full-time -tvzf "$1"
}

test_same_bytes() {
    shipped_copy "$plain"
    cp "$plain/dist/ptides.record" "$work/record"
    attempt "$plain/tools/release.sh"
    expect 'release: status' 0 "$status"
    expect 'release: notes' '' "$(cat "$work/notes")"
    cp "$work/output" "$work/line"
    shipped_copy "$other"
    find "$other" -exec touch -h -d '2001-02-03 04:05:06' {} +
    chmod -R go-rwx "$other"
    touch "$other/crates/ptides/more" "$other/tools/ptides-of-mine" "$other/docs/.draft"
    mkdir "$work/folder"
    (umask 077 && cd "$work" && attempt env -u HOME TZ=Asia/Tokyo LC_ALL=C.UTF-8 TAR_OPTIONS=--format=pax GZIP=-1 "$other/tools/release.sh" folder)
    expect 'a build elsewhere: the same line' "$(cat "$work/line")" "$(cat "$work/output")"
    expect 'a build elsewhere: the same bytes' '' "$(cmp "$plain/out/$archive" "$work/folder/$archive" 2>&1)"
    expect 'a build elsewhere: the same digest' '' "$(cmp "$plain/out/$archive.sha256" "$work/folder/$archive.sha256" 2>&1)"
    (cd "$work/folder" && attempt sha256sum -c "$archive.sha256")
    expect_output 'sha256sum -c' "$archive: OK"
}

test_entries() {
    local paths
    entries "$plain/out/$archive" >"$work/entries"
    expect 'owners and times' '0/0 1980-01-01 00:00:00' "$(awk '{ print $2, $4, $5 }' "$work/entries" | sort -u)"
    expect 'rights' '-rw-r--r-- -rwxr-xr-x drwxr-xr-x lrwxrwxrwx' "$(cut -d ' ' -f 1 "$work/entries" | sort -u | tr '\n' ' ' | sed 's/ $//')"
    tar -tzf "$plain/out/$archive" | sed 's,/$,,' >"$work/paths"
    expect 'all is in one folder' "$name" "$(cut -d / -f 1 "$work/paths" | sort -u)"
    for paths in bin/ptides lib/ptides/program lib/ptides/tools/ptides-explain share/man/man1/ptides.1 share/bash-completion/completions/ptides \
        share/ptides/graph.schema.json share/ptides/air.csv-metadata.json share/doc/ptides/README.md share/doc/ptides/CHANGELOG.md \
        share/doc/ptides/LICENSE share/doc/ptides/LICENSE-MIT share/doc/ptides/LICENSE-APACHE share/doc/ptides/docs/FORMATS.md \
        share/doc/ptides/examples/basic/graph.json; do
        expect "$paths is there" 1 "$(grep -cxF -- "$name/$paths" "$work/paths")"
    done
}

# Runs the program that was unpacked, without the clone, a home or more than the system's tools.
unpacked() { # WORD..
    attempt env -i PATH=/usr/bin:/bin "$work/empty/$name/bin/ptides" "$@"
}

test_unpacked() {
    mkdir "$work/empty"
    tar -C "$work/empty" -xzf "$plain/out/$archive"
    mv "$plain" "$work/away"
    unpacked -C "$work/empty/$name/share/doc/ptides/examples/governor" run graph.json
    expect_output 'an example' "$(cat examples/governor/expected.csv)"
    unpacked --version
    expect_output 'its version' "ptides $(cat VERSION)"$'\n'"$(grep -E '^(sources|toolchain) ' "$work/record")"
    expect 'its program' '' "$(cmp dist/ptides "$work/empty/$name/lib/ptides/program" 2>&1)"
    unpacked help
    expect 'its help: status' 0 "$status"
    expect 'its help: the companions' "$(find tools -name 'ptides-*' | wc -l)" "$(grep -cE '^  [a-z]+ \.\.\.' "$work/output")"
    if command -v python3 >/dev/null; then
        unpacked -C "$work/empty/$name/share/doc/ptides/examples/governor" lint graph.json
        expect 'a companion: status' 0 "$status"
    else
        skip 'a companion, since python3 is not there'
    fi
    mv "$work/away" "$plain"
}

test_refusals() {
    rm -r "$plain/out"
    for words in '--help' 'a b'; do
        # shellcheck disable=SC2086
        attempt "$plain/tools/release.sh" $words
        expect_refusal "release.sh $words" 1 usage
    done
    touch "$work/file"
    attempt "$plain/tools/release.sh" "$work/file/folder"
    expect "a folder that can't be made: status" 1 "$status"
    expect "a folder that can't be made: output" '' "$(cat "$work/output")"
    mkdir -p "$plain/out"
    cp "$plain/dist/ptides" "$plain/out/ptides"
    attempt "$plain/tools/release.sh"
    expect_refusal 'a program that was built here' 1 'remove out/ptides'
    rm "$plain/out/ptides"
    echo >>"$plain/crates/ptides/src/main.rt"
    attempt env PATH=/usr/bin:/bin "$plain/tools/release.sh"
    expect_refusal 'other sources' 1 'dist/ has no program of these sources'
    expect 'nothing is made' '' "$(ls "$plain"/out/*.gz 2>/dev/null)"
}

if [ ! -x dist/ptides ]; then
    skip 'all, since nothing is shipped'
else
    test_same_bytes
    test_entries
    test_unpacked
    test_refusals
fi
echo "$passed passed, $failed failed, $skipped skipped"
[ "$failed" -eq 0 ]
