"""Rigs of SAS expanders, judged by the proved library.

A rig is loaded from a text, a domain file or standard input. Every answer about it
comes from the library; this package reads texts and prints sentences.

>>> from metzurgo import Rig
>>> rig = Rig.of_text(PAIR)
>>> rig.judge()
2
>>> rig.needed()
Needed(tables=1, words=4)
>>> table = rig.tables().tables[0]
>>> rig.expanders[table.expander].name, table.phy, rig.label(table.words[0])
('top', 0, 'B1')
"""

from .answers import Refusal, Setting, WIDEST
from .form import Form
from .library import Library, LibraryMissing, find_library
from .rig import Rig
from .shelf import Shelf

__all__ = [
    "Form",
    "Library",
    "LibraryMissing",
    "Refusal",
    "Rig",
    "Setting",
    "Shelf",
    "WIDEST",
    "find_library",
]
__version__ = "0.1.0"

PAIR = """\
drive A1 50000000000000a1
drive B1 50000000000000b1

expander top 5000000000000010 R 4 configurable
  phy 0 table to bottom.0
  phy 1 direct to A1

expander bottom 5000000000000020 R 0
  phy 0 subtractive
  phy 1 direct to B1
  phy 2 direct empty
"""
