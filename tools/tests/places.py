"""Where tests find what they try: the folder of the tools, the top of the clone, the examples, and each command of `afdx`."""
import os
import sys

from afdx.commands.help_texts import OF_TOOLS

# How many seconds a test waits for what ends by itself, whatever else the machine does. It fails by this only if something hangs.
PATIENCE = 900

TOOLS = os.path.dirname(os.path.dirname(os.path.abspath(__file__)))
TOP = os.path.dirname(TOOLS)
EXAMPLES = os.path.join(TOP, "examples")
# So other processes find the packages, too.
os.environ["PYTHONPATH"] = TOOLS


def tool_words(name):
    """The words that run the tool of a command of `afdx` in a process of its own. No program is chosen for it."""
    return [sys.executable, "-m", OF_TOOLS[name].module]


def read_terminal(master):
    """All that was printed at the other end of a pseudoterminal, which is closed. It comes in pieces, if the machine is busy."""
    pieces = []
    try:
        while piece := os.read(master, 65536):
            pieces.append(piece)
    except OSError:
        pass
    os.close(master)
    return b"".join(pieces)
