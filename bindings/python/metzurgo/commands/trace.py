"""metzurgo trace: where a connection request goes, and why."""

import argparse
import re
from typing import Any, Dict, List, Tuple

from .. import matrix, shared
from ..answers import NO_PHY, OUTCOMES, RULES, Traced
from ..requests import address_of, start_of
from ..rig import Passed, Rig, Table, Tables, address_text
from ..sentences import plural
from ..stored import set_disabled

EXAMPLE = """\
  $ metzurgo trace samples/pair.rig top B1
  arrived at B1 by phy 1 of bottom, 2 expanders passed
  top     (iii) entry 0 of phy 0 has the address: on by phy 0 to phy 0 of bottom
  bottom  (ii) phy 1 has the address attached: arrived
  $ metzurgo trace --all samples/pair.rig
          top  bottom  A1  B1
  top       1       2   1   2
  bottom    2       1   2   1
  A1        1       2   x   2
  B1        2       1   2   x
  16 requests: 14 arrived, 0 NO DESTINATION, 2 BAD DESTINATION
"""


class All(argparse.Action):
    """--all, with which FROM and TO are left out."""

    def __call__(self, parser: Any, namespace: Any, values: Any, option: Any = None) -> None:
        setattr(namespace, self.dest, True)
        for action in parser._actions:
            if action.dest in ("FROM", "TO"):
                action.required = False


class Alter(argparse.Action):
    """Keeps --set, --disable and --enable in the order of the command line."""

    def __call__(self, parser: Any, namespace: Any, values: Any, option: Any = None) -> None:
        namespace.alter = namespace.alter + [(option.lstrip("-"), values)]


def add_parser(subparsers: Any) -> None:
    parser = shared.parser(
        subparsers,
        __name__,
        "follow a connection request",
        "Follows a connection request over the routing tables, and says where it ends. For"
        " each expander passed it says which rule of the standard was used: (i) it has the"
        " address itself, (ii) a phy has it attached, (iii) a table has it among its entries,"
        " (iv) its subtractive phy, (v) none of these. --set, --disable and --enable alter"
        " entries before, in the order of the command line. With --all it follows every request"
        " of the rig and prints a line for each start: a number where the request arrived, the"
        " expanders passed; - for NO DESTINATION; x for BAD DESTINATION, as where a drive asks"
        " for itself. The status is then 0 where all other requests arrived.",
        EXAMPLE,
    )
    shared.add_rig(parser)
    parser.add_argument(
        "FROM",
        help="an expander, a drive (it comes in by the lowest phy attached to it)"
        " or EXPANDER.PHY; by name or address",
    )
    parser.add_argument("TO", help="the address asked for, or the name of who has it")
    parser.add_argument(
        "--all",
        action=All,
        nargs=0,
        default=False,
        help="follow all requests, from every expander and every phy attached to a drive to every"
        " expander and drive; FROM and TO are left out",
    )
    parser.add_argument(
        "--set",
        action=Alter,
        metavar="E.P.I=ADDRESS",
        help="write an address, or a name's, or 0, into entry I of the table of phy P of"
        " expander E; the entry is enabled unless it is 0",
    )
    parser.add_argument(
        "--disable", action=Alter, metavar="E.P.I", help="disable that entry; its address stays"
    )
    parser.add_argument("--enable", action=Alter, metavar="E.P.I", help="enable that entry")
    shared.add_tables(parser, "trace over")
    parser.set_defaults(run=run, alter=[])


def run(args: argparse.Namespace) -> int:
    if args.all and args.FROM is not None:
        raise shared.CommandError("with --all there is no FROM and no TO")
    shared.read_once(("RIG", args.RIG), ("--tables", args.tables))
    rig = shared.load(args)
    tables = shared.tables_of(rig, args.tables)
    for option, value in args.alter:
        alter(rig, tables, option, value)
    if args.all:
        return matrix.show(rig, tables, args.json)
    start, arrival = start_of(rig, args.FROM)
    address = address_of(rig, args.TO)
    request = (tables, start, arrival, address)
    traced: Traced = shared.answered(rig, rig.trace, *request)
    passed: List[Passed] = shared.answered(rig, rig.steps, *request)
    if args.json:
        shared.print_json(trace_json(rig, traced, passed))
    else:
        print(end_text(rig, traced))
        width = max(len(rig.expander_name(each.expander)) for each in passed)
        for each in passed:
            print(f"{rig.expander_name(each.expander):{width}}  {step_text(rig, each)}")
    return shared.ACCEPTED if traced.arrived else shared.REFUSED


# Altered entries.


def alter(rig: Rig, tables: Tables, option: str, value: str) -> None:
    """Does what --set, --disable or --enable says, to the words and bits."""
    place, equals, text = value.partition("=")
    if (option == "set") != bool(equals):
        form = "E.P.I=ADDRESS" if option == "set" else "E.P.I"
        raise shared.CommandError(f'--{option} takes {form}, not "{value}"')
    table, index = entry_of(rig, tables, place)
    word = table.first + index
    if option == "set":
        address = 0 if re.fullmatch("0+", text) else address_of(rig, text)
        tables.words[word] = address
        set_disabled(tables, word, address == 0)
    else:
        set_disabled(tables, word, option == "disable")


def entry_of(rig: Rig, tables: Tables, place: str) -> Tuple[Table, int]:
    """The table and index of E.P.I."""
    match = re.fullmatch(r"(.+)\.([0-9]{1,3})\.([0-9]{1,5})", place)
    expander = rig.expander(match[1]) if match else None
    if not match or not expander:
        raise shared.CommandError(
            f'{rig.source}: "{place}" is not EXPANDER.PHY.INDEX of this rig, as in top.0.3'
        )
    phy, index = int(match[2]), int(match[3])
    for table in tables.tables:
        if (table.expander, table.phy) == (expander.number, phy):
            if index < len(table.words):
                return table, index
            raise shared.CommandError(
                f"{rig.source}: the table of {rig.phy_name(expander.number, phy)}"
                f" has entries 0 to {len(table.words) - 1}, and no entry {index}"
            )
    raise shared.CommandError(f"{rig.source}: {rig.phy_name(expander.number, phy)} has no table")


# Words.


def end_text(rig: Rig, traced: Traced) -> str:
    name = rig.expander_name(traced.expander)
    count = plural(len(traced.passed), "expander") + " passed"
    if not traced.arrived:
        return f"{OUTCOMES[traced.outcome]} at {name}, {count}"
    if traced.phy == NO_PHY:
        return f"arrived at {name} itself, {count}"
    device = rig.label(rig.expanders[traced.expander].phys[traced.phy].attached)
    return f"arrived at {device} by phy {traced.phy} of {name}, {count}"


def step_text(rig: Rig, passed: Passed) -> str:
    """What an expander did, and by which rule."""
    step = passed.step
    reasons = {
        1: "it has the address itself",
        2: f"phy {step.phy} has the address attached",
        3: f"entry {step.route_index} of phy {step.phy} has the address",
        4: f"phy {step.phy} is subtractive",
        5: "no phy, no table entry and no subtractive phy leads on",
    }
    end = "arrived"
    if step.bad:
        back = rig.expanders[passed.expander].phys[passed.arrival].attached
        end = f"that is {rig.label(back)}, where it came from: BAD DESTINATION"
    elif step.next is not None:
        far = rig.phy_name(step.next, step.arrival if step.arrival is not None else NO_PHY)
        end = f"on by phy {step.phy} to {far}"
    elif step.rule == 5:
        end = "NO DESTINATION"
    return f"({RULES[step.rule]}) {reasons[step.rule]}: {end}"


def trace_json(rig: Rig, traced: Traced, passed: List[Passed]) -> Dict[str, Any]:
    phy = None if traced.phy == NO_PHY else traced.phy
    device = rig.expanders[traced.expander].address
    if phy is not None:
        device = rig.expanders[traced.expander].phys[phy].attached
    return {
        "outcome": OUTCOMES[traced.outcome],
        "expander": traced.expander,
        "name": rig.expander_name(traced.expander),
        "phy": phy,
        "device": address_text(device) if traced.arrived else None,
        "passed": [
            {
                "expander": each.expander,
                "name": rig.expander_name(each.expander),
                "arrival": None if each.arrival == NO_PHY else each.arrival,
                "rule": RULES[each.step.rule],
                "phy": each.step.phy,
                "index": each.step.route_index,
                "bad": each.step.bad,
                "next": each.step.next,
            }
            for each in passed
        ],
    }
