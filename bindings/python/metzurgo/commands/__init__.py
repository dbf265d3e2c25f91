"""The subcommands, one file each.

A file has add_parser(subparsers), which makes the subcommand's parser and sets
run=run on it, and run(args), which does the work and returns the exit status.
"""

ORDER = (
    "judge",
    "tables",
    "trace",
    "frames",
    "shelf",
    "draw",
    "build",
    "print",
    "card",
    "plug",
    "pull",
    "join",
    "exercise",
    "collect",
)
