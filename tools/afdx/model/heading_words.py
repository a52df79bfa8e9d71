"""The columns of afdx table, and the headings that interface control documents give them.

A heading is taken for a column only where it can mean no other one. Where two columns fit, both are answered, and the
reader of the table refuses it: "frame size" may be the greatest frame or the frames that are offered. Where the meanings
are from:

  664   ARINC 664 Part 7: virtual link, BAG, Lmax or Smax, SkewMax, sub-virtual links, two priorities, policing
  653   ARINC 653 Part 1: the attributes of ports, as the refresh period of a sampling port and the room of a queuing port
  ICD   no standard: usual in interface control documents and in configuration tables made of them
"""
from collections.abc import Mapping
from typing import NamedTuple

# The units that a heading or a cell may end with, as they are written in small letters with _ between words.
TIMES = {
    "ns": ("ns", "nsec", "nanosecond", "nanoseconds"),
    "us": ("us", "usec", "microsecond", "microseconds"),
    "ms": ("ms", "msec", "millisecond", "milliseconds"),
    "s": ("s", "sec", "second", "seconds"),
}
RATES = {"hz": ("hz", "hertz"), "khz": ("khz",)}
BYTES = {"": ("byte", "bytes", "octet", "octets", "b", "o")}
SPEEDS = {"": ("mbit", "mbits", "mbps", "mbit_s", "mbits_s", "mb_s", "mbit_sec"), "gbit": ("gbit", "gbits", "gbps", "gbit_s", "gbits_s", "gb_s")}
METRES = {
    "m": ("m", "metre", "metres", "meter", "meters"),
    "cm": ("cm", "centimetres", "centimeters"),
    "mm": ("mm", "millimetres", "millimeters"),
    "km": ("km",),
    "ft": ("ft", "feet", "foot"),
}
NUMERALS = {"": ("dec", "decimal"), "hex": ("hex", "hexadecimal")}


class Column(NamedTuple):
    """A column: its name without a unit, the words of each unit, the unit that is meant if none is named (None: one must be
    named), its headings, and where they are from."""

    name: str
    units: Mapping[str, tuple[str, ...]]
    usual: str | None
    headings: tuple[str, ...]
    source: str


def plain(name: str, source: str, *headings: str) -> Column:
    return Column(name, {}, "", headings, source)


def time(name: str, source: str, *headings: str, usual: str | None = None) -> Column:
    return Column(name, TIMES, usual, headings, source)


def size(name: str, source: str, *headings: str) -> Column:
    return Column(name, BYTES, "", headings, source)


BOXES = ("lru", "es", "end_system", "equipment", "node", "unit", "system", "device", "box", "subscriber", "module")


def ends(*words: str) -> list[str]:
    """The headings of one end of a virtual link: a word alone, and before or behind each name of a box."""
    boxes = [*BOXES, *(f"{box}s" for box in BOXES), "name", "names"]
    return [*words, *(f"{word}_{box}" for word in words for box in boxes), *(f"{box}_{word}" for word in words for box in BOXES)]


def sides(letter: str, number: str, word: str) -> list[str]:
    """The headings of one end of a cable: `From LRU`, `Node A`, `Equipment 1`."""
    boxes = (*BOXES, "end", "side", "switch", "terminal", "connection")
    either = [f"{box}_{mark}" for box in boxes for mark in (letter, number)] + [f"{box}{mark}" for box in boxes for mark in (letter, number)]
    return [word, *(f"{word}_{box}" for box in (*BOXES, "switch", "name")), *either, f"{letter}_end", f"{letter}_side", f"end_{letter}_name", f"end_{number}_name"]


def switches(net: str) -> list[str]:
    """The headings of the switch of one network that an end system is linked with, beside `switch_a`."""
    return [f"{switch}_{of}{net}" for switch in ("switch", "sw") for of in ("", "net_", "network_", "channel_", "of_network_")] + [
        f"{of}{net}_{switch}" for switch in ("switch", "sw") for of in ("", "net_", "network_", "channel_")
    ]


def ports(*words: str) -> list[str]:
    """The headings of the port of one end."""
    return [f"{word}_{port}" for word in words for port in ("port", "port_name", "port_id", "afdx_port", "com_port", "comm_port")]


NETWORKS = ("network", "networks", "channel", "channels", "afdx_network", "network_id", "side", "plane")

COLUMNS = {
    "top": [
        time("until", "ICD", "duration", "simulation_time", "end_of_the_run"),
        plain("seed", "ICD"),
    ],
    "node": [
        plain(
            "name", "ICD", "node", "node_name", "switch", "switch_name", "end_system", "end_system_name", "lru", "lru_name", "equipment",
            "equipment_name", "device", "device_name", "es", "es_name", "box", "acronym", "mnemonic", "subscriber",
        ),
        plain("kind", "ICD", "type", "node_type", "node_kind", "equipment_type", "device_type", "lru_type", "role"),
        size(
            "port_bytes", "664", "port_buffer", "port_buffer_size", "buffer_size", "output_buffer", "output_queue_size", "buffer", "buffer_per_port",
            "port_memory", "output_port_buffer", "output_buffer_size",
        ),
        plain("net", "664", *NETWORKS),
        time(
            "latency", "664", "switch_latency", "switching_latency", "switching_delay", "technological_latency", "forwarding_delay",
            "technology_latency", "max_latency", "maximum_latency", "relay_latency", "switch_delay",
        ),
        plain("document_name", "ICD"),
    ],
    "link": [
        plain("a", "ICD", *sides("a", "1", "from"), *switches("a")),
        plain("b", "ICD", *sides("b", "2", "to"), *switches("b")),
        plain("end", "ICD", "end_system", "end_system_name", "es", "es_name", "lru", "lru_name", "equipment", "equipment_name", "node", "node_name", "unit", "box"),
        Column("mbit", SPEEDS, "", ("speed", "link_speed", "data_rate", "bit_rate", "mbit_s", "mbps", "line_rate", "bandwidth", "rate"), "664"),
        time("propagation", "ICD", "propagation_delay", "propagation_time", "cable_delay"),
        Column("length", METRES, "m", ("cable_length", "wire_length", "harness_length", "length_of_cable"), "ICD"),
        plain("net", "664", *NETWORKS, "net"),
    ],
    "outage": [plain("from", "ICD", "from_node"), plain("to", "ICD", "to_node"), time("from", "ICD"), time("to", "ICD")],
    "vl": [
        Column(
            "id", NUMERALS, "",
            (
                "vl", "vlid", "vl_id", "vl_number", "vl_no", "vl_nr", "vl_num", "vl_identifier", "vl_index", "vl_ident", "afdx_vl", "afdx_vl_id",
                "virtual_link", "virtual_link_id", "virtual_link_number", "virtual_link_no", "virtual_link_identifier", "number",
            ),
            "664",
        ),
        plain(
            "source", "ICD", "src", "from", "transmitter", "publisher", "producer", "emitter", "originator", "sender",
            *ends("tx", "source", "src", "transmitting", "transmitter", "sending", "sender", "from", "emitting", "emitter", "publishing", "producer"),
        ),
        plain(
            "destinations", "ICD", "destination", "dest", "dst", "sink", "sinks", "receiver", "receivers", "subscriber", "subscribers",
            "consumer", "consumers", "recipients",
            *ends("to", "rx", "destination", "dest", "dst", "receiving", "receiver", "subscribing", "consumer"),
        ),
        time("bag", "664", "bandwidth_allocation_gap", usual="ms"),
        size(
            "smax", "664", "lmax", "s_max", "l_max", "max_frame_size", "maximum_frame_size", "max_frame_length", "maximum_frame_length", "max_frame",
            "maximum_frame", "mfs", "max_frame_size_lmax", "lmax_max_frame_size", "max_ethernet_frame_size",
        ),
        size("payload", "664", "payload_size", "payload_length", "udp_payload", "udp_payload_size", "max_payload", "maximum_payload", "max_payload_size"),
        size("size", "664"),
        size(
            "message_bytes", "653", "message_size", "message_length", "msg_size", "msg_length", "max_message_size", "maximum_message_size",
            "max_message_length", "max_msg_size", "data_size", "data_length",
        ),
        size("last_size", "ICD"),
        plain("frames", "ICD"),
        plain("timing", "653", "tx_type", "port_type", "transmission_type", "transmit_type", "port_mode", "message_type"),
        plain("priority", "664", "prio", "vl_priority"),
        plain(
            "sub", "664", "sub_links", "sub_virtual_links", "sub_vls", "subvls", "number_of_sub_vls", "number_of_sub_virtual_links", "nb_sub_vl",
            "nb_sub_vls", "no_of_sub_vls", "num_sub_vls", "sub_vl_count", "nb_of_sub_vls",
        ),
        plain(
            "sub_vl", "664", "subvl", "sub_vl_id", "sub_vl_no", "sub_vl_number", "sub_vl_index", "sub_virtual_link", "sub_virtual_link_id",
            "sub_virtual_link_number", "sub_link", "svl",
        ),
        plain("policing", "664", "policing_mode", "policing_type", "policing_by"),
        time("policing_jitter", "664", "allowed_jitter", "jitter_allowed"),
        time("skew_max", "664", "skewmax", "max_skew", "maximum_skew"),
        plain("network", "664", *NETWORKS, "net", "nets", "redundancy", "redundant"),
        plain("depth", "653", "queue_depth", "queue_length", "queue_size_frames", "fifo_depth", "max_nb_message", "max_nb_messages"),
        time("offset", "ICD", "start_offset"),
        time(
            "period", "653", "refresh_period", "refresh_interval", "update_period", "update_interval", "transmit_period", "transmission_period", "tx_period",
            "message_period", "cycle", "cycle_time", "repetition_period", "sampling_period", "emission_period", "sending_period",
        ),
        Column("rate", RATES, None, ("refresh_rate", "update_rate", "transmit_rate", "transmission_rate", "tx_rate", "message_rate", "frequency"), "ICD"),
        time("jitter", "ICD"),
        time("end", "ICD"),
        plain(
            "equipment", "ICD", "lru", "lru_name", "equipment_name", "end_system", "end_system_name", "es", "es_name", "node", "device", "unit", "box",
        ),
        plain("direction", "ICD", "dir", "tx_rx", "rx_tx", "in_out", "i_o", "way"),
        plain("via", "ICD"),
        plain("a", "ICD", "paths_a", "path_a"),
        plain("b", "ICD", "paths_b", "path_b"),
        time(
            "limit", "ICD", "max_latency", "maximum_latency", "latency_limit", "latency_requirement", "max_delay", "maximum_delay", "deadline",
            "max_end_to_end_latency", "max_transport_delay", "max_transmission_delay", "max_e2e_latency", "required_latency", "max_transit_delay",
            "latency_max", "end_to_end_latency_requirement",
        ),
        plain("name", "ICD", "vl_name", "virtual_link_name", "vl_label", "vl_designation"),
        plain("message", "ICD", "message_name", "msg", "msg_name", "messages"),
        plain("port", "653", "port_name", "port_id", "ports", "afdx_port", "comm_port", "com_port", "communication_port"),
        plain("tx_port", "653", *ports("tx", "transmit", "transmitting", "sending", "sender", "source_afdx", "publisher"), "source_port_name"),
        plain("rx_port", "653", *ports("rx", "receive", "receiving", "receiver", "destination_afdx", "subscriber"), "destination_port_name", "dest_port_name"),
        plain("stream", "ICD", "stream_number", "stream_no", "stream_id"),
        plain("udp_port", "664", "udp", "udp_ports"),
        plain("udp_source_port", "664", "source_port", "src_port", "udp_source", "udp_src_port", "source_udp_port", "tx_udp_port"),
        plain(
            "udp_destination_port", "664", "destination_port", "dest_port", "dst_port", "udp_destination", "udp_dst_port", "udp_dest_port",
            "destination_udp_port", "rx_udp_port",
        ),
    ],
}
REMARKS = "remarks"
for columns in COLUMNS.values():
    columns.append(plain(REMARKS, "ICD", "remark", "comment", "comments", "note", "notes", "description"))

# Headings that may mean either of several columns, without their unit.
OPEN: dict[str, dict[str, tuple[str, ...]]] = {
    "vl": {
        **dict.fromkeys(("frame_size", "frame_length", "frame", "packet_size", "ethernet_frame_size"), ("smax", "size")),
        **dict.fromkeys(("length", "bytes"), ("smax", "size", "payload")),
        **dict.fromkeys(("max_jitter", "maximum_jitter", "jitter_max", "tx_jitter", "transmit_jitter"), ("policing_jitter", "jitter")),
    },
}
# Headings that name nodes only where one of these keys stands beside: a list of equipment is no table of nodes.
WEAK = {
    "switch", "switch_name", "end_system", "end_system_name", "lru", "lru_name", "equipment", "equipment_name", "device", "device_name", "es", "es_name",
    "box", "acronym", "mnemonic", "subscriber",
}
OF_NODES = {"net", "port_bytes", "latency_ns"}
