"""The reader by itself, as a guest has it: python3 -m companion.loaded."""
import sys

from companion import loaded, refusals

if __name__ == "__main__":
    refusals.call(lambda: loaded.main(sys.argv[1:]), "loaded")
