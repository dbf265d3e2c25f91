"""All requests of a rig: from every start to every address, as lines or as JSON.

A start is an expander or a phy attached to a drive. Each list of requests is one call over the
compact form of the rig, which is made once.
"""

import json
from array import array
from typing import Any, Callable, Dict, Iterator, List, NamedTuple, Sequence, Set

from . import shared
from .answers import NO_PHY, OUTCOMES
from .form import End, Form, first_word
from .rig import Rig, Tables, address_text

AT_ONCE = 65536  # requests in one list
SIGNS = ("{count}", "-", "x")  # a cell for each outcome


class Start(NamedTuple):
    """Where requests start: an expander, and the phy attached to a drive (255: none)."""

    expander: int
    arrival: int
    address: int  # of the expander, or of the drive
    name: str  # as FROM is written


class Row(NamedTuple):
    """A start, and the answers to its requests, packed, in the order of the addresses."""

    start: Start
    answers: Sequence[int]


def starts_of(rig: Rig) -> List[Start]:
    """Every expander, then every phy attached to a drive.

    A drive goes by its name at the lowest of its phys, and by EXPANDER.PHY at the others.

    >>> from metzurgo import PAIR
    >>> [start.name for start in starts_of(Rig.of_text(PAIR))]
    ['top', 'bottom', 'A1', 'B1']
    """
    starts = [Start(each.number, NO_PHY, each.address, each.name) for each in rig.expanders]
    seen: Set[int] = set()
    for expander in rig.expanders:
        for phy in expander.phys:
            if phy.vacant or not phy.at_drive:
                continue
            name = rig.label(phy.attached)
            if phy.attached in seen:
                name = f"{expander.name}.{phy.number}"
            seen.add(phy.attached)
            starts.append(Start(expander.number, phy.number, phy.attached, name))
    return starts


def rows(form: Form, tables: Tables, starts: List[Start], addresses: List[int]) -> Iterator[Row]:
    """The answers for each start, by as few calls as are worth it."""
    width = len(addresses)
    several = max(1, AT_ONCE // width)
    for first in range(0, len(starts), several):
        some = starts[first : first + several]
        requests = array("Q", bytes(16 * width * len(some)))
        requests[1::2] = array("Q", addresses * len(some))
        requests[::2] = array(
            "Q", [first_word(each.expander, each.arrival) for each in some for _ in addresses]
        )
        answers = form.answers(tables, requests)
        for place, start in enumerate(some):
            yield Row(start, answers[place * width : (place + 1) * width])


class Kept(Dict[int, str]):
    """A text for each answer, made once."""

    def __init__(self, make: Callable[[End], str]) -> None:
        super().__init__()
        self.make = make

    def __missing__(self, answer: int) -> str:
        self[answer] = text = self.make(End.of(answer))
        return text


class Summary:
    """How many requests had each outcome, and whether any failed but a drive's for itself."""

    def __init__(self, addresses: List[int]) -> None:
        self.counts = [0] * len(OUTCOMES)
        self.failed = False
        self._places = {address: place for place, address in enumerate(addresses)}

    def add(self, row: Row) -> None:
        outcomes = [answer >> 24 for answer in row.answers]
        for outcome in range(len(OUTCOMES)):
            self.counts[outcome] += outcomes.count(outcome)
        if row.start.arrival != NO_PHY:
            outcomes[self._places[row.start.address]] = 0
        self.failed = self.failed or any(outcomes)

    def __str__(self) -> str:
        parts = [f"{count} {outcome}" for count, outcome in zip(self.counts, OUTCOMES)]
        return f"{sum(self.counts)} requests: {', '.join(parts)}"

    @property
    def status(self) -> int:
        return shared.REFUSED if self.failed else shared.ACCEPTED


def show(rig: Rig, tables: Tables, as_json: bool) -> int:
    """Prints the ends of all requests over tables of a rig, and returns the exit status."""
    form: Form = shared.answered(rig, Form.of, rig)
    starts = starts_of(rig)
    addresses = list(dict.fromkeys(start.address for start in starts))
    found = shared.progress(rows(form, tables, starts, addresses), len(starts), "starts")
    summary = Summary(addresses)
    names = [rig.label(address) for address in addresses]
    if as_json:
        print_objects(found, addresses, names, summary)
    else:
        print_lines(found, starts, names, summary)
    return summary.status


def print_lines(
    found: Iterator[Row], starts: List[Start], names: List[str], summary: Summary
) -> None:
    """A line with the names of the addresses, then one for each start."""
    width = max(len(start.name) for start in starts)
    widths = [max(2, len(name)) for name in names]
    cells = Kept(lambda end: SIGNS[end.outcome].format(count=end.passed_count))
    print(line("", width, names, widths))
    for row in found:
        summary.add(row)
        print(line(row.start.name, width, [cells[answer] for answer in row.answers], widths))
    print(summary)


def line(name: str, width: int, cells: List[str], widths: List[int]) -> str:
    """
    >>> line("top", 6, ["1", "-"], [2, 4])
    'top      1     -'
    """
    return f"{name:{width}}  " + "  ".join(map(str.rjust, cells, widths))


def print_objects(
    found: Iterator[Row], addresses: List[int], names: List[str], summary: Summary
) -> None:
    """One JSON object; of each start one line, since there can be many."""
    columns = [
        {"address": address_text(address), "name": name} for address, name in zip(addresses, names)
    ]
    ends = Kept(lambda end: json.dumps(end_json(end)))
    print(f'{{\n  "addresses": {json.dumps(columns)},\n  "starts": [', end="")
    comma = ""
    for row in found:
        summary.add(row)
        start = json.dumps(start_json(row.start))[:-1]
        told = ", ".join([ends[answer] for answer in row.answers])
        print(f'{comma}\n    {start}, "ends": [{told}]}}', end="")
        comma = ","
    print(f'\n  ],\n  "requests": {json.dumps(dict(zip(OUTCOMES, summary.counts)))}\n}}')


def start_json(start: Start) -> Dict[str, Any]:
    return {
        "expander": start.expander,
        "arrival": None if start.arrival == NO_PHY else start.arrival,
        "address": address_text(start.address),
        "name": start.name,
    }


def end_json(end: End) -> Dict[str, Any]:
    return {
        "outcome": OUTCOMES[end.outcome],
        "expander": end.expander,
        "phy": None if end.phy == NO_PHY else end.phy,
        "count": end.passed_count,
    }
