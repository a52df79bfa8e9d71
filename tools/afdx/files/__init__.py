"""Files as the tools read and write them, and how a tool ends.

A tool does not write over what it has read, and no two of the files that it writes are one: files are compared by what
they are, and not by their names. A name that is written stays what it is: a link, a mode, a device. A plain file
is replaced whole or not at all.

    @files.tool("afdx bounds")               # one line and a status for whatever ends the tool
    def main(arguments: Any = None) -> None:
        text = files.text_of(path)           # Fault where it cannot be read, in one line with the file
        files.write_whole(output, made)      # or several, which are all judged before one is written: write_all

This file has the names that other packages use; each stands in a file of its idea.
"""
from afdx.files.ending import BAD, BEHIND_A_SIGNAL, ENDS, tool, why  # noqa: F401
from afdx.files.faults import Fault, Interrupted, cut, ended_by, printable  # noqa: F401
from afdx.files.identities import is_same_file, judge, judge_folder, reads  # noqa: F401
from afdx.files.reading import lines_of, text_of  # noqa: F401
from afdx.files.signals import SIGNALS, signals_held, signals_taken  # noqa: F401
from afdx.files.streams import report, say, settle_streams, write_out  # noqa: F401
from afdx.files.writing import output_name, ready, replace, write_all, write_pieces, write_whole  # noqa: F401
