#!/usr/bin/env bash
# Checks by what the gate printed that each must-fail edit was refused by what the code must do:
#
#     tools/check-edits.sh LOG        LOG is what `rt ci` printed
#
# It fails if an edit could not be tried, or was refused only because a proof names what the edit took away, or by a limit of the prover.
set -u
if [ $# -ne 1 ] || [ ! -r "$1" ]; then
    echo "usage: tools/check-edits.sh LOG" >&2
    exit 2
fi
refused=$(grep -c 'refused, as it must be' "$1")
weak=$(grep -E 'BAD EDIT|NOT TRIED|NOT REFUSED|refused, as it must be \(only' "$1")
if [ -n "$weak" ]; then
    printf '%s\n' "$weak"
    echo "these edits show nothing of a contract: change a value and keep the names, or remove them"
    exit 1
fi
echo "$refused edits, each refused by what the code must do"
