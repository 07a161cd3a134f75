#!/usr/bin/env python3
"""Makes the manual pages of the companions, docs/man/ptides-NAME.1, and their part of the completion, from their parsers.

    make-companion-pages.py            writes them
    make-companion-pages.py --check    says which of them aren't as they would be written, with status 1 if there are some
"""
from __future__ import annotations

import argparse
import importlib.machinery
import importlib.util
import re
import sys
from pathlib import Path
from typing import Any, Iterator

sys.dont_write_bytecode = True
TOP = Path(__file__).resolve().parents[1]
sys.path.insert(0, str(TOP / "python"))
from ptides import companion  # noqa: E402

COMPLETION = TOP / "completions" / "ptides.bash"
BEGIN, END = "# Made by tools/make-companion-pages.py:", "# End of what is made."


def names() -> list[str]:
    """The companions."""
    return sorted(path.name[len("ptides-"):] for path in (TOP / "tools").glob("ptides-*") if re.fullmatch("ptides-[a-z0-9-]+", path.name))


def module_of(name: str) -> Any:
    """A companion as a module."""
    loader = importlib.machinery.SourceFileLoader(f"ptides_{name}", str(TOP / "tools" / f"ptides-{name}"))
    specification = importlib.util.spec_from_loader(loader.name, loader)
    module = importlib.util.module_from_spec(specification)
    # Dataclasses look their module up.
    sys.modules[loader.name] = module
    loader.exec_module(module)
    return module


def kinds_of(parser: argparse.ArgumentParser) -> dict[str, argparse.ArgumentParser]:
    """The parsers of the kinds that a companion has."""
    found = next((action for action in parser._actions if isinstance(action, argparse._SubParsersAction)), None)
    return dict(found.choices) if found else {}


def options_of(parser: argparse.ArgumentParser) -> list[argparse.Action]:
    """The options of a parser, without words that have no dash."""
    return [action for action in parser._actions if action.option_strings]


# ---- manual pages -----------------------------------------------------------------------------------------------------


def roff(text: str) -> str:
    """Text that roff leaves as it is."""
    text = text.replace("\\", "\\e").replace("-", "\\-")
    return "\n".join("\\&" + line if line.startswith((".", "'")) else line for line in text.split("\n"))


def words_of(action: argparse.Action) -> str:
    """How an option is written, with its value."""
    value = "" if action.nargs == 0 else " " + (action.metavar or ("|".join(action.choices) if action.choices else action.dest.upper()))
    return ", ".join(f"\\fB{roff(word)}\\fR" + (f" \\fI{roff(value.strip())}\\fR" if value else "") for word in action.option_strings)


def paragraphs(text: str) -> Iterator[str]:
    """Text for roff, which fills its lines. A line that begins with spaces is a list item, two columns, or stays as it is."""
    is_filled = True
    for line in companion.joined(text):
        item, columns = re.fullmatch(r" +- (.*)", line), re.fullmatch(r" +(\S.*?) {3,}(\S.*)", line)
        if bool(item or columns or not line.startswith(" ")) != is_filled:
            is_filled = not is_filled
            yield ".fi" if is_filled else ".nf"
        if item:
            yield from [".IP \\(bu 2", roff(item[1])]
        elif columns:
            yield from [".TP", f"\\fB{roff(columns[1])}\\fR", roff(columns[2])]
        elif line.startswith(" "):
            yield roff(line)
        else:
            yield from [".PP", roff(line)] if line else []
    yield from [] if is_filled else [".fi"]


def lines_of(parser: argparse.ArgumentParser) -> Iterator[str]:
    """What each word of a parser means."""
    for action in parser._actions:
        if isinstance(action, argparse._SubParsersAction) or action.help is argparse.SUPPRESS:
            continue
        said = (action.help or "").replace("%(default)s", str(action.default))
        what = words_of(action) if action.option_strings else f"\\fI{roff(str(action.metavar or action.dest))}\\fR"
        if said or action.option_strings:
            yield from [".TP", what, roff(said) or "\\&"]


def usage_of(parser: argparse.ArgumentParser) -> str:
    """The usage in one line."""
    return " ".join(parser.format_usage().split())[len("usage: "):]


def says(name: str) -> str:
    """The line of a companion in the list of the launcher."""
    head = (TOP / "tools" / f"ptides-{name}").read_text(encoding="utf-8").split("\n")[:10]
    return next(line[len("# ptides: "):] for line in head if line.startswith("# ptides: "))


def manual(name: str, parser: argparse.ArgumentParser) -> str:
    """The manual page of a companion."""
    lines = [".\\\" Made by tools/make-companion-pages.py from the parser of the companion.", f".TH PTIDES\\-{name.upper()} 1 \"\" ptides \"Companions of ptides\"",
             ".SH NAME", f"ptides\\-{name} \\- {roff(says(name))}", ".SH SYNOPSIS", roff(usage_of(parser)), ".SH DESCRIPTION",
             *paragraphs(parser.description or ""), ".PP", "It is a companion of", ".BR ptides (1),", "which runs it as", f".B ptides {name} ..",
             "Companions are tested, not proved.", ".SH OPTIONS", *lines_of(parser)]
    for kind, each in kinds_of(parser).items():
        lines += [f".SS ptides {name} {kind}", roff(usage_of(each)), *lines_of(each)]
    lines += [".SH NOTES", *paragraphs(parser.epilog or ""), ".SH EXIT STATUS",
              "0 if all is well, 1 if the words or files are wrong, which one line on standard error says. If",
              ".BR ptides (1)", "refuses a graph, its status and its line are passed on.", ".SH SEE ALSO", ".BR ptides (1)"]
    return "\n".join(lines) + "\n"


# ---- completion -------------------------------------------------------------------------------------------------------


def completion(parsers: dict[str, argparse.ArgumentParser]) -> str:
    """The part of the completion that is about companions: a function that writes the options of one, and its kinds."""
    lines = [BEGIN, "_ptides_companion_options() { # NAME [KIND]", "    case $1 in"]
    for name, parser in parsers.items():
        own = " ".join(word for action in options_of(parser) for word in action.option_strings)
        kinds = kinds_of(parser)
        if kinds:
            lines += [f"        {name})", "            case ${2-} in"]
            lines += [f"                {kind}) echo '{' '.join(word for action in options_of(each) for word in action.option_strings)}' ;;" for kind, each in kinds.items()]
            lines += [f"                *) echo '{own}' ;;", "            esac", "            ;;"]
        else:
            lines += [f"        {name}) echo '{own}' ;;"]
    lines += ["    esac", "}", "", "_ptides_companion_kinds() { # NAME", "    case $1 in"]
    lines += [f"        {name}) echo '{' '.join(kinds_of(parser))}' ;;" for name, parser in parsers.items() if kinds_of(parser)]
    lines += ["        wave | report) echo 'run replay' ;;", "        explain) echo 'run check meaning make migrate slacks audit replay' ;;", "    esac", "}", END]
    return "\n".join(lines)


def files() -> dict[Path, str]:
    """All files as they should be."""
    parsers = {name: module_of(name).parser() for name in names()}
    found = {TOP / "docs" / "man" / f"ptides-{name}.1": manual(name, parser) for name, parser in parsers.items()}
    before, _, rest = COMPLETION.read_text(encoding="utf-8").partition(BEGIN)
    _, _, after = rest.partition(END)
    found[COMPLETION] = before + completion(parsers) + after
    return found


def main() -> int:
    """Writes the files, or compares them."""
    wanted, stale = files(), 0
    for path, text in wanted.items():
        if path.exists() and path.read_text(encoding="utf-8") == text:
            continue
        if sys.argv[1:] == ["--check"]:
            stale += 1
            print(f"{path.relative_to(TOP)} is not as tools/make-companion-pages.py writes it")
        else:
            path.parent.mkdir(exist_ok=True)
            path.write_text(text, encoding="utf-8")
    return int(stale > 0)


if __name__ == "__main__":
    sys.exit(main())
