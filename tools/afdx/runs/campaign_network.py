"""The network of a campaign, whose description is written anew for each run: with another seed, and with other offsets."""
import os
import subprocess
import tempfile
from typing import Any

from afdx import model
from afdx.files import Fault, text_of
from afdx.model import description_faults


class CampaignNetwork(model.Network):
    """A description that the program has accepted, with another end where one is given."""

    def __init__(self, path: str, program: str | None, until_ns: int | None = None) -> None:
        if program:
            text = text_of(path)
            self.check(path, text, program)
            description = model.Description(path, text)
        else:
            description = description_faults.accepted(path)
        if until_ns is not None:
            description.tree["until_ns"] = until_ns
        super().__init__(path, description=description)
        self.write(self.description.tree)

    @staticmethod
    def check(path: str, text: str, program: str) -> None:
        """Has the program judge the description, of which it gets a copy: so it is read once."""
        with tempfile.TemporaryDirectory() as folder:
            copy = os.path.join(folder, "net.toml")
            with open(copy, "w", encoding="utf-8", newline="\n") as out:
                out.write(text)
            try:
                run = subprocess.run([program, "check", copy], stdin=subprocess.DEVNULL, capture_output=True)
            except OSError as fault:
                raise Fault(program, None, f"cannot be run: {fault.strerror}") from None
        if run.returncode != 0:
            said = run.stderr.decode("utf-8", "replace").strip().split("\n")[0]
            raise Fault(path, model.line_of_refusal(text, said), "is refused: " + (said or f"status {run.returncode}"))

    def write(self, found: dict[str, Any]) -> None:
        """Writes the description anew, line by line, but for the seed, which stands first."""
        self.lines = [f"until_ns = {found['until_ns']}"]
        # For each stream the place of its offset in the lines, its period, and its number.
        self.offsets: list[tuple[int, int, int]] = []
        for section in model.SECTIONS:
            for i, row in enumerate(found.get(section, []), 1):
                self.lines.append(f"[[{section}]]")
                for key, value in row.items():
                    if key == "offset_ns":
                        number = model.stream_of(section, i, row).number
                        self.offsets.append((len(self.lines), row["period_ns"], number))
                    self.lines.append(f"{key} = {model.written(value)}")

    def with_seed(self, seed: int, drawn: bool) -> str:
        """The text of the description with another seed, and with drawn offsets if they are asked for."""
        lines = [f"seed = {seed}", *self.lines]
        if drawn:
            for place, period, number in self.offsets:
                lines[place + 1] = f"offset_ns = {model.drawn_offset(seed, number, period)}"
        return "\n".join(lines) + "\n"

    def with_offsets(self, seed: int, offsets: dict[int, int]) -> str:
        """The text of the description with another seed, and these offsets of its streams by their numbers."""
        lines = [f"seed = {seed}", *self.lines]
        for place, _, number in self.offsets:
            lines[place + 1] = f"offset_ns = {offsets[number]}"
        return "\n".join(lines) + "\n"


class ChangedNetwork(CampaignNetwork):
    """An accepted description of which some values were changed, so that it still is one."""

    def __init__(self, description: model.Description) -> None:
        model.Network.__init__(self, description.path, description=description)
        self.write(self.description.tree)
