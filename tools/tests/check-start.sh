#!/usr/bin/env bash
# Checks the pages for newcomers: runs each command of README.md and of docs/START-*.md in a copy of the examples, as a newcomer would, and
# those of the examples that they use; and that the recordings of these examples are what their scripts write.
#
# GTKWave, which a page opens, shows its window on a display that nobody sees, and is closed after some seconds. The last line is
# `N passed, M failed, K skipped`.
#
# shellcheck source-path=SCRIPTDIR source=counting.sh
. "$(dirname -- "$(realpath -- "$0")")/counting.sh" || exit 1
is_there python3 || { skip "the pages for newcomers, since there is no python3"; finish; exit; }

# Makes a `gtkwave` for the pages that ends by itself: as the real one, or with 127 if it can't be shown here.
make_viewer() {
    local real
    mkdir -- "$work/bin"
    real=$(command -v gtkwave) && is_there xvfb-run || real=''
    cat >"$work/bin/gtkwave" <<VIEWER
#!/bin/sh
[ -n "$real" ] || exit 127
timeout 5 xvfb-run -a "$real" "\$@"
[ \$? -eq 124 ]
VIEWER
    chmod +x "$work/bin/gtkwave"
    PATH=$work/bin:$PATH
}

# These files of an example are what its script writes.
check_recording() { # EXAMPLE FILE..
    local example=$top/examples/$1 copy=$work/$1 file
    copy "$example" "$copy"
    (cd -- "$copy" && rm -- "${@:2}" && python3 ./record.py) || fail "$1: record.py ends with a fault"
    for file in "${@:2}"; do
        same "$1: $file is what record.py writes" "$example/$file" "$copy/$file"
    done
}

# Runs a page that is a task on an example. These files of the example are what the page makes.
start() { # PAGE EXAMPLE FILE..
    local file
    if grep -q 'ptides report' "$top/docs/START-$1.md" && [ ! -e /usr/share/javascript/dygraphs/dygraph.min.js ]; then
        skip "docs/START-$1.md, since libjs-dygraphs isn't there"
        return
    fi
    page "docs/START-$1.md" .
    for file in "${@:3}"; do
        same "$2: $file is what docs/START-$1.md makes" "$top/examples/$2/$file" "$work/page/my-$2/$file"
    done
    page "examples/$2/README.md" "examples/$2"
}

make_viewer
check_recording relay good.vcd slow.vcd lost.vcd
check_recording cruise drive.log brakes.log engine.log
check_recording shift history.csv
page README.md .
start bench relay trip.csv open.csv
start vehicle cruise pedal.csv speed.csv stalk.csv pedal.zero speed.zero stalk.zero
start plant shift level.csv level.zero
equal "each page has its example" "bench plant vehicle" "$(cd -- "$top/docs" && printf '%s\n' START-*.md | sed 's/START-//; s/\.md//' | tr '\n' ' ' | sed 's/ $//')"
finish
