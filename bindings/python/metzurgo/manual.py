"""Man pages, made from the text that --help prints.

    python3 -m metzurgo.manual FOLDER

writes metzurgo.1 and a page for each subcommand, metzurgo-judge.1 and so on.
"""

import argparse
import os
import sys
from typing import Dict, List, Optional

from . import __version__
from .__main__ import make_parser
from .shared import STATUS, Parser


def escaped(text: str) -> str:
    """Text that roff takes literally.

    >>> print(escaped(".a-b \\\\ c"))
    \\&.a\\-b \\e c
    """
    lines = text.replace("\\", "\\e").replace("-", "\\-").split("\n")
    return "\n".join("\\&" + line if line[:1] in (".", "'") else line for line in lines)


def verbatim(text: str) -> List[str]:
    """Lines that are kept as they stand."""
    return [".nf", escaped(text.rstrip("\n")), ".fi"]


def invocation(action: argparse.Action) -> str:
    """How an argument is written.

    >>> parser = argparse.ArgumentParser()
    >>> invocation(parser.add_argument("-w", "--way", nargs=2, metavar=("FROM", "TO")))
    '-w, --way FROM TO'
    >>> invocation(parser.add_argument("--length", type=int, choices=(0, 9)))
    '--length 0|9'
    >>> invocation(parser.add_argument("RIG")), invocation(parser.add_argument("--device"))
    ('RIG', '--device DEVICE')
    """
    metavar = action.metavar or action.dest
    value = metavar if isinstance(metavar, str) else " ".join(metavar)
    if action.choices and not isinstance(action, argparse._SubParsersAction):
        value = "|".join(map(str, action.choices))
    elif action.option_strings and not action.metavar:
        value = action.dest.upper()
    if not action.option_strings:
        return value
    names = ", ".join(action.option_strings)
    return names if action.nargs == 0 else f"{names} {value}"


def subcommands(parser: Parser) -> Dict[str, Parser]:
    for action in parser._actions:
        if isinstance(action, argparse._SubParsersAction):
            return dict(action.choices)
    return {}


def page(parser: Parser) -> str:
    """The man page of a parser."""
    name = parser.prog.replace(" ", "-")
    usage = " ".join(parser.format_usage().split()[1:])
    lines = [f'.TH {escaped(name).upper()} 1 "" "metzurgo {__version__}"']
    lines += [".SH NAME", f"{escaped(name)} \\- {escaped(parser.summary)}"]
    lines += [".SH SYNOPSIS", escaped(usage)]
    lines += [".SH DESCRIPTION", escaped(parser.prose)]
    parts = subcommands(parser)
    if parts:
        lines.append(".SH COMMANDS")
        for part, other in parts.items():
            lines += [".TP", f"\\fBmetzurgo\\-{part}\\fR(1)", escaped(other.summary)]
    lines.append(".SH ARGUMENTS AND OPTIONS")
    for action in parser._actions:
        if action.help and not isinstance(action, argparse._SubParsersAction):
            lines += [".TP", f"\\fB{escaped(invocation(action))}\\fR", escaped(action.help)]
    if parser.example:
        lines += [".SH EXAMPLE"] + verbatim(parser.example)
    if parser.more:
        lines += [".SH THE TEXT"] + verbatim(parser.more)
    lines += [".SH EXIT STATUS"] + verbatim(STATUS.partition("\n")[2])
    others = ["metzurgo"] if not parts else [f"metzurgo-{part}" for part in parts]
    lines += [".SH SEE ALSO", ", ".join(f"\\fB{escaped(other)}\\fR(1)" for other in others)]
    return "\n".join(lines) + "\n"


def pages() -> Dict[str, str]:
    """Each page by its file name."""
    parser = make_parser()
    every = [parser, *subcommands(parser).values()]
    return {f"{each.prog.replace(' ', '-')}.1": page(each) for each in every}


def main(arguments: Optional[List[str]] = None) -> int:
    """Writes the pages into a folder."""
    folders = sys.argv[1:] if arguments is None else arguments
    if len(folders) != 1:
        print("metzurgo.manual: the one argument is the folder of the pages", file=sys.stderr)
        return 2
    try:
        os.makedirs(folders[0], exist_ok=True)
        for name, text in pages().items():
            with open(os.path.join(folders[0], name), "w", encoding="utf-8") as target:
                target.write(text)
    except OSError as error:
        print(f"{error.filename}: {error.strerror}", file=sys.stderr)
        return 3
    return 0


if __name__ == "__main__":
    sys.exit(main())
