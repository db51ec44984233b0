"""Files that a script makes of others: it writes them, or compares them and says what to run."""
import argparse
import os
import sys

import kexec_files as files
import kexec_table as table


def is_check(text):
    """Whether --check is given, the one word that such a script takes; --help prints the script's text."""
    parser = files.Parser(text)
    parser.add_argument("--check", action="store_true", help=argparse.SUPPRESS)
    return parser.parse_args().check


def differing(made, source, command, only_compares):
    """How many of these files, each a path with its text, are not that of their source. Each is told with the command that
    writes it, where the files are only compared; else it is written, and none is left."""
    wrong = [path for path, text in made.items() if not path.exists() or path.read_text(encoding="utf-8") != text]
    for path in wrong:
        if only_compares:
            name = os.path.basename(command.split()[0])
            print(f"{name}: {path.relative_to(table.TOP)} is not that of {source}: run {command}", file=sys.stderr)
        else:
            path.write_text(made[path], encoding="utf-8")
    return len(wrong) if only_compares else 0
