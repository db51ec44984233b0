"""Linux kernel files for the measurements: a bzImage, as far as a loader reads it, and the map of a machine of 4 GiB."""
import os
import sys

sys.path.append(f"{os.path.dirname(os.path.dirname(os.path.realpath(__file__)))}/scripts")
from companion.kernels import write_bzimage
from companion.written import to_write

__all__ = ["MAP", "write_bzimage", "write_machine_map"]

MAP = """00001000-0009ffff : System RAM
000a0000-000fffff : Reserved
00100000-bffdefff : System RAM
  2d000000-3cffffff : Crash kernel
bffdf000-bfffffff : Reserved
100000000-13fffffff : System RAM
"""


def write_machine_map(file):
    with to_write(file, True) as out:
        out.write(MAP)
