"""The folder of a campaign: what is written there, each file with its checksum, and what an earlier campaign has left there.

A folder has the files of one campaign. Where an earlier one has left some, it is refused; or they are replaced, and what is not
written anew is removed once all is written. So a campaign that fails at its first run leaves the earlier one whole.
"""
import contextlib
import hashlib
import os
import re
from collections.abc import Iterable, Iterator

from afdx import files
from afdx.files import Fault

# The names of the files that a campaign writes.
WRITTEN = re.compile(
    r"campaign\.json|(merged|greatest|histograms|most_lost|outages|sweep|aim)\.(csv|json)|late\.csv|(outages|sweep|late)\.html"
    r"|((outage|set|aimed)-\d+-)?seed-\d+\.(toml|tables\.csv)"
)
# The fault names this many files of an earlier campaign at most.
MOST_NAMED = 3


class Folder:
    """The folder at a path, which is made where it is not there. `sums` has for each file that was written its SHA-256."""

    def __init__(self, path: str, replaces: bool = False) -> None:
        self.path = path
        self.sums: dict[str, str] = {}
        if path == "-":
            raise Fault(path, None, "is no folder: what a campaign writes are files, and ./- is a folder of this name")
        files.judge_folder(path, lambda name: bool(WRITTEN.fullmatch(name)))
        earlier = self.earlier()
        if earlier and not replaces:
            more = f" and {len(earlier) - MOST_NAMED:,} more" if len(earlier) > MOST_NAMED else ""
            text = f"has files of an earlier campaign: {', '.join(earlier[:MOST_NAMED])}{more}. Name another folder, or --replace them"
            raise Fault(path, None, text)
        try:
            os.makedirs(path, exist_ok=True)
        except OSError as fault:
            raise Fault(path, None, f"cannot be made: {fault.strerror}") from None
        files.ready([os.path.join(path, "campaign.json"), *(self.at(name) for name in earlier if name != "campaign.json")], prints=True)

    def at(self, name: str) -> str:
        return os.path.join(self.path, name)

    def earlier(self) -> list[str]:
        """The names of the files of a campaign that are there."""
        with contextlib.suppress(OSError):
            return sorted(name for name in os.listdir(self.path) if WRITTEN.fullmatch(name))
        return []

    def write(self, name: str, text: str | Iterable[str]) -> str:
        """Writes a file of a text, or of texts one after another, and answers its path."""
        found = hashlib.sha256()
        texts = [text] if isinstance(text, str) else text

        def pieces() -> Iterator[bytes]:
            for it in texts:
                piece = it.encode("utf-8", "backslashreplace")
                found.update(piece)
                yield piece

        files.write_pieces(self.at(name), pieces())
        self.sums[name] = found.hexdigest()
        return self.at(name)

    def close(self) -> None:
        """Removes what an earlier campaign has left and this one has not written."""
        for name in self.earlier():
            if name not in self.sums:
                try:
                    os.unlink(self.at(name))
                except OSError as fault:
                    raise Fault(self.at(name), None, f"is of an earlier campaign, and cannot be removed: {fault.strerror}") from None
