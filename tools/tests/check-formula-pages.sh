#!/usr/bin/env bash
# Checks the page of formulas: runs each command of docs/FORMULAS.md in a copy of the examples, as a reader would; and what the page says
# of lines and columns, of values and of limits. The last line is `N passed, M failed, K skipped`.
#
# shellcheck source-path=SCRIPTDIR source=counting.sh
. "$(dirname -- "$(realpath -- "$0")")/counting.sh" || exit 1
is_there python3 || { skip "the page of formulas, since there is no python3"; finish; exit; }

page docs/FORMULAS.md .
count python3 "$top/tools/tests/formula_page.py"
finish
