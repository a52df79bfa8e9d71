"""Words of titles, groups and sheets that say whether something is sent or received."""
import re

SENDING = {
    "tx", "transmit", "transmits", "transmitted", "transmission", "transmissions", "transmitter", "transmitters", "sender", "senders", "emission", "emissions",
    "emitted", "sent", "sends", "sending", "outgoing", "output", "outputs", "published",
}
RECEIVING = {
    "rx", "receive", "receives", "received", "reception", "receptions", "receiver", "receivers", "receiving", "incoming", "input", "inputs", "subscribed",
    "consumed",
}


def words_of(text: str) -> list[str]:
    return re.findall(r"[^\W_]+", text.lower())


def direction_of(text: str) -> str | None:
    """Whether a title or the name of a sheet speaks of what is sent or of what is received."""
    found = set(words_of(text))
    return None if bool(found & SENDING) == bool(found & RECEIVING) else "tx" if found & SENDING else "rx"
