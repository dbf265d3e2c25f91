"""What the subcommands share: arguments, loading, refusals, output."""

import argparse
import json
import sys
import textwrap
import time
from typing import Any, Dict, Iterable, Iterator, NoReturn, Optional, Tuple, TypeVar

from .answers import WIDEST, Refusal, Setting
from .rig import FORMS, CardRefused, EventRefused, JoinRefused, Rig, Tables

ACCEPTED, REFUSED, USAGE, UNREADABLE = 0, 1, 2, 3
INTERRUPTED = 130  # 128 and the number of the signal

STATUS = """\
exit status:
  0    accepted, or arrived
  1    refused, or not arrived
  2    wrong usage
  3    a file that cannot be read or written
  130  interrupted (Ctrl-C)"""


Item = TypeVar("Item")


class CommandError(Exception):
    """An error of a command: one line on standard error, and an exit status."""

    def __init__(self, message: str, status: int = USAGE) -> None:
        super().__init__(message)
        self.status = status


class Parser(argparse.ArgumentParser):
    """A parser whose errors are one line, with the text that --help and the man page share."""

    summary = ""
    prose = ""
    example = ""
    more = ""

    def tell(self, summary: str, prose: str, example: str = "", more: str = "") -> None:
        """Sets the text: one line, a paragraph, an example with its output, and more."""
        self.summary, self.prose, self.example, self.more = summary, prose, example, more
        self.description = textwrap.fill(prose, 79)
        shown = f"example:\n{example.rstrip()}" if example else ""
        self.epilog = "\n\n".join(filter(None, [shown, more, STATUS]))

    def error(self, message: str) -> NoReturn:
        self.exit(USAGE, f"{self.prog}: {message} ({self.prog} --help)\n")


def course(text: str) -> Setting:
    """The setting of --course.

    >>> course("16,32,4")
    Setting(expanders=16, phys=32, chain=4)
    """
    parts = text.split(",")
    if len(parts) != 3 or not all(part.strip().isdecimal() for part in parts):
        raise argparse.ArgumentTypeError(
            f'"{text}" is not EXPANDERS,PHYS,CHAIN (three numbers, as in 16,32,4)'
        )
    return Setting(*map(int, parts))


def parser(
    subparsers: Any, module: str, summary: str, prose: str, example: str, more: str = ""
) -> Parser:
    """The parser of the subcommand that a module has."""
    made: Parser = subparsers.add_parser(
        module.rpartition(".")[2],
        help=summary,
        formatter_class=argparse.RawDescriptionHelpFormatter,
    )
    made.tell(summary, prose, example, more)
    return made


def add_rig(made: Parser, json_too: bool = True) -> None:
    """RIG, --as, --course and --json."""
    made.add_argument("RIG", help="a rig text, a domain file, a card, or - for standard input")
    add_form(made)
    add_course(made)
    if json_too:
        add_json(made)


def add_form(made: Parser) -> None:
    made.add_argument(
        "--as",
        dest="form",
        choices=FORMS,
        help="what RIG is, where its content is not to say: a rig text, a domain file, or a card,"
        " which may then also be in base64 or hexadecimal",
    )


def add_course(made: Parser) -> None:
    made.add_argument(
        "--course",
        type=course,
        default=WIDEST,
        metavar="EXPANDERS,PHYS,CHAIN",
        help="the limits of a course: most expanders (1 to 64), most phys of one (1 to 128),"
        " longest chain in expanders (1 to 64); 64,128,64 where it is left out",
    )


def add_json(made: Parser) -> None:
    made.add_argument("--json", action="store_true", help="print one JSON object")


def load(args: argparse.Namespace, quiet: bool = False) -> Rig:
    """The rig of RIG and --course; warnings of its text go to standard error unless quiet.

    A card that no file can be made of ends the command.
    """
    try:
        rig = Rig.load(args.RIG, args.course, args.form)
    except CardRefused as refusal:
        raise Refused(refusal.rig, refusal) from None
    for warning in rig.warnings if not quiet else []:
        print(warning, file=sys.stderr)
    return rig


def read_once(*inputs: Tuple[str, Optional[str]]) -> None:
    """Standard input, which a hyphen names, can be one input of a command, and not two.

    >>> read_once(("A", "-"), ("B", "pair.rig"))
    >>> read_once(("A", "-"), ("B", "-"))
    Traceback (most recent call last):
    ...
    metzurgo.shared.CommandError: standard input cannot be both A and B
    """
    names = [name for name, path in inputs if path == "-"]
    if len(names) > 1:
        raise CommandError(f"standard input cannot be both {names[0]} and {names[1]}")


def print_json(value: Dict[str, Any]) -> None:
    print(json.dumps(value, indent=2))


def refusal_json(rig: Rig, refusal: Refusal) -> Dict[str, Any]:
    """A refusal, for programs."""
    from .sentences import line_of, sentence

    return {
        "refused": {
            "number": refusal.number,
            "expander": refusal.expander,
            "phy": refusal.phy,
            "line": line_of(rig, refusal),
            "sentence": sentence(rig, refusal),
        }
    }


class Refused(CommandError):
    """A rig was refused where a command wanted its answer."""

    def __init__(self, rig: Rig, refusal: Refusal) -> None:
        from .sentences import line_of, sentence

        line = line_of(rig, refusal)
        where = f"line {line}: " if line else ""
        super().__init__(f"{rig.source}: {where}{refusal}: {sentence(rig, refusal)}", REFUSED)
        self.rig, self.refusal = rig, refusal


def answered(rig: Rig, act: Any, *arguments: Any) -> Any:
    """What a call answers; a refusal ends the command."""
    try:
        return act(*arguments)
    except (JoinRefused, EventRefused) as refusal:
        raise Refused(refusal.rig, refusal) from None
    except Refusal as refusal:
        raise Refused(rig, refusal) from None


def add_tables(made: Parser, what: str) -> None:
    made.add_argument(
        "--tables",
        metavar="FILE",
        help=f"{what} stored tables, as tables --stored prints them, in place of those that the"
        " library fills",
    )


def tables_of(rig: Rig, path: Optional[str] = None) -> Tables:
    """The tables of a rig, or those that a file has, with a progress line.

    A refusal ends the command.
    """
    from . import stored

    try:
        total = rig.needed().tables
        tables = rig.tables(lambda firsts: progress(firsts, total, "tables"))
    except Refusal as refusal:
        raise Refused(rig, refusal) from None
    if path is not None:
        stored.load(rig, tables, path)
    return tables


def progress(items: Iterable[Item], total: int, what: str) -> Iterator[Item]:
    """The items. After a second a line on a terminal says how many are done."""
    shown = 0
    begin = last = time.monotonic()
    for done, item in enumerate(items):
        now = time.monotonic()
        if now - begin > 1 and now - last > 0.2 and sys.stderr.isatty():
            line = f"{what} {done} of {total}"
            print(f"\r{line:{shown}}", end="", file=sys.stderr, flush=True)
            shown, last = len(line), now
        yield item
    if shown:
        print("\r" + " " * shown + "\r", end="", file=sys.stderr, flush=True)
