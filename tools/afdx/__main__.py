"""The one command: `python3 -m afdx --help`."""
import sys

from afdx.commands import one_command

if __name__ == "__main__":
    sys.exit(one_command.main())
