"""The table of the crates, crates.txt: what each of them stands on."""
import os

TOP = os.path.dirname(os.path.dirname(os.path.realpath(__file__)))


def read_crates():
    """What each crate of the repository uses, as 'NAME: DEP DEP ..' a line has it: names of its own crates, and of the
    kit's."""
    with open(f"{TOP}/crates.txt", encoding="utf-8") as file:
        lines = [line.partition("#")[0] for line in file]
    return {line.partition(":")[0].strip(): line.partition(":")[2].split() for line in lines if ":" in line}


def below(uses, name):
    """The crates of the repository that the named one stands on, directly or not, and itself."""
    found, left = set(), [name]
    while left:
        one = left.pop()
        if one in uses and one not in found:
            found.add(one)
            left += uses[one]
    return found
