"""The values of a stream, of the lines of its port: the sizes of frames, those of a message that IP cuts, and times."""
import math

from afdx.document import cells
from afdx.document.lines import Line
from afdx.document.row_values import Row, RowValues, Value
from afdx.files import cut
from afdx.model.keys import GREATEST_FRAME, LEAST_FRAME

# The bytes of a frame beside the payload of UDP: Ethernet header 14, IP 20, UDP 8, sequence number 1, check sequence 4.
BYTES_AROUND_A_PAYLOAD = 47
# Those beside the payload of IP, of which each fragment but the last has a multiple of 8 bytes.
BYTES_AROUND_A_FRAGMENT, BYTES_OF_UDP = 39, 8
GREATEST_PAYLOAD = GREATEST_FRAME - BYTES_AROUND_A_PAYLOAD


class StreamValues(RowValues):
    """Makes the values of streams."""

    def greatest_frame(self, line: Line, row: Row) -> Value | None:
        """The greatest frame that a stream needs, where no column says it."""
        if "payload" in line.cells:
            payload = self.value(line, "vl", "payload")
            if payload is not None and payload > GREATEST_PAYLOAD:
                self.add(line, "payload", f"payload is {payload}, and a frame has {GREATEST_PAYLOAD} bytes of it at most")
            return None if payload is None else frame_of(payload, "payload")
        if "message_bytes" in line.cells:
            length = self.value(line, "vl", "message_bytes")
            whole = None if length is None else frame_of(length, "message_bytes")
            return whole if whole is None or whole.value <= GREATEST_FRAME else Value(GREATEST_FRAME, "the greatest frame")
        return Value(row["size"].value, "that of size") if "size" in row else None

    def offers(self, line: Line, row: Row, smax: int | None) -> None:
        """Adds what the columns of a stream say otherwise than its keys do."""
        if "message_bytes" in line.cells:
            self.message(line, row, smax or GREATEST_FRAME)
        elif "payload" in line.cells and (payload := self.value(line, "vl", "payload")) is not None:
            row.setdefault("size", frame_of(payload, "payload"))
        if smax is not None:
            row.setdefault("size", Value(smax, "that of smax"))
        self.timing(line, row)

    def message(self, line: Line, row: Row, smax: int) -> None:
        """The frames of a message: one, or as many as IP cuts it into."""
        length = self.value(line, "vl", "message_bytes")
        if length is None:
            return
        whole = frame_of(length, "message_bytes")
        if whole.value > smax:
            self.fragments(line, row, length, smax)
            return
        if "size" in row and row["size"].value != whole.value:
            self.add(line, "size", f"size is {row['size'].value}, and a message of {length} bytes makes a frame of {whole.value}")
        row.setdefault("size", whole)

    def fragments(self, line: Line, row: Row, length: int, smax: int) -> None:
        """The frames of a message that is longer than one."""
        room = max(8, (smax - BYTES_AROUND_A_FRAGMENT) // 8 * 8)
        count = math.ceil((length + BYTES_OF_UDP) / room)
        last = max(LEAST_FRAME, length + BYTES_OF_UDP - (count - 1) * room + BYTES_AROUND_A_FRAGMENT)
        said = f"message_bytes {length}, cut into {count} frames as IP cuts it"
        if line.cells.get("timing", "").lower() == "sampling":
            self.add(line, "message_bytes", f"message_bytes is {length}, which takes {count} frames of smax {smax}, and a sampling port has messages of one frame")
        for key, value in (("size", room + BYTES_AROUND_A_FRAGMENT), ("frames", count), ("last_size", last)):
            if key in row and row[key].value != value:
                self.add(line, key, f"{key} is {row[key].value}, and it is {value} of a message of {length} bytes that is cut into frames of {smax} at most")
            row.setdefault(key, Value(value, said))

    def timing(self, line: Line, row: Row) -> None:
        """Whether messages come each period, or a period apart at the least."""
        text = line.cells.get("timing")
        word = cells.word_of("timing", text) if text else None
        if text and word is None:
            self.add(line, "timing", f"timing is {cut(text)}, and must be sampling, queuing, periodic, event or sporadic")
        elif text and word == "sporadic":
            row["timing"] = Value("sporadic", f"timing {text}" if text != "sporadic" else "")


def frame_of(payload: int, column: str) -> Value:
    """The size of the frame of a payload, and what is said of it."""
    size = max(LEAST_FRAME, payload + BYTES_AROUND_A_PAYLOAD)
    padded = f", and {LEAST_FRAME} at least" if size > payload + BYTES_AROUND_A_PAYLOAD else ""
    return Value(size, f"{column} {payload} and {BYTES_AROUND_A_PAYLOAD} bytes around it{padded}")
