"""The shared library and its structures: the only module that calls C. The rest of the package has no pointers.

The library is, in this order: $GOFNJERTA_DIR/lib/libgofnjerta.so.0 if that variable is set (the folder that build-c.sh made), the one that
a wheel has beside this file, or the one that the loader finds."""

from __future__ import annotations

import ctypes
import os
from typing import Any, Dict, List, Tuple, Type


class CHost(ctypes.Structure):
    _fields_ = [("at", ctypes.c_void_p), ("is_open", ctypes.c_bool)]


class CConfig(ctypes.Structure):
    _fields_ = [
        ("peers", ctypes.c_uint16),
        ("channels", ctypes.c_uint8),
        ("mtu", ctypes.c_uint32),
        ("incoming", ctypes.c_uint32),
        ("outgoing", ctypes.c_uint32),
        ("max_packet", ctypes.c_uint32),
        ("max_waiting", ctypes.c_uint32),
        ("generations", ctypes.c_uint32),
        ("clock", ctypes.c_uint32),
    ]


class CAddress(ctypes.Structure):
    _fields_ = [("ip", ctypes.c_uint32), ("port", ctypes.c_uint16)]


class CPeer(ctypes.Structure):
    _fields_ = [("slot", ctypes.c_uint16), ("generation", ctypes.c_uint32)]


class CReceived(ctypes.Structure):
    _fields_ = [("status", ctypes.c_uint32), ("handled", ctypes.c_uint32), ("stop", ctypes.c_uint32)]


class CDatagram(ctypes.Structure):
    _fields_ = [("length", ctypes.c_uint32), ("to", CAddress), ("peer", CPeer)]


class CEvent(ctypes.Structure):
    _fields_ = [
        ("kind", ctypes.c_uint32),
        ("info", ctypes.c_uint32),
        ("peer", CPeer),
        ("channel", ctypes.c_uint8),
        ("flags", ctypes.c_uint8),
        ("length", ctypes.c_uint64),
    ]


class CReading(ctypes.Structure):
    _fields_ = [
        ("state", ctypes.c_uint32),
        ("mtu", ctypes.c_uint32),
        ("window", ctypes.c_uint32),
        ("connect_id", ctypes.c_uint32),
        ("round_trip", ctypes.c_uint32),
        ("variance", ctypes.c_uint32),
        ("in_transit", ctypes.c_uint32),
        ("throttle", ctypes.c_uint32),
        ("throttle_interval", ctypes.c_uint32),
        ("acceleration", ctypes.c_uint32),
        ("deceleration", ctypes.c_uint32),
        ("address", CAddress),
        ("slot", ctypes.c_uint16),
        ("channels", ctypes.c_uint8),
        ("incoming_session", ctypes.c_uint8),
        ("outgoing_session", ctypes.c_uint8),
    ]


class CLine(ctypes.Structure):
    _fields_ = [
        ("round_trip", ctypes.c_uint32),
        ("variance", ctypes.c_uint32),
        ("lowest", ctypes.c_uint32),
        ("lowest_before", ctypes.c_uint32),
        ("throttle", ctypes.c_uint32),
        ("allowance", ctypes.c_uint32),
        ("in_transit", ctypes.c_uint32),
        ("commands", ctypes.c_uint64),
        ("bytes", ctypes.c_uint64),
    ]


class CTraffic(ctypes.Structure):
    _fields_ = [
        ("sent", ctypes.c_uint64),
        ("again", ctypes.c_uint64),
        ("acknowledged", ctypes.c_uint64),
    ]


class CTotals(ctypes.Structure):
    _fields_ = [
        ("datagrams_in", ctypes.c_uint64),
        ("bytes_in", ctypes.c_uint64),
        ("datagrams_out", ctypes.c_uint64),
        ("bytes_out", ctypes.c_uint64),
    ]


class CHeld(ctypes.Structure):
    _fields_ = [
        ("channels", ctypes.c_uint64),
        ("senders", ctypes.c_uint64),
        ("packets", ctypes.c_uint64),
        ("undispatched", ctypes.c_uint64),
        ("bytes", ctypes.c_uint64),
        ("acknowledgements", ctypes.c_uint64),
        ("memory", ctypes.c_uint64),
        ("most_memory", ctypes.c_uint64),
    ]


class CSlots(ctypes.Structure):
    _fields_ = [
        ("free", ctypes.c_uint16),
        ("spent", ctypes.c_uint16),
        ("connecting", ctypes.c_uint16),
        ("answering", ctypes.c_uint16),
        ("connected", ctypes.c_uint16),
        ("leaving", ctypes.c_uint16),
    ]


# Each structure by its name in C.
STRUCTURES: List[Tuple[str, Type[ctypes.Structure]]] = [
    ("gofnjerta_host", CHost),
    ("gofnjerta_config", CConfig),
    ("gofnjerta_address", CAddress),
    ("gofnjerta_peer", CPeer),
    ("gofnjerta_received", CReceived),
    ("gofnjerta_datagram", CDatagram),
    ("gofnjerta_event", CEvent),
    ("gofnjerta_reading", CReading),
    ("gofnjerta_line", CLine),
    ("gofnjerta_traffic", CTraffic),
    ("gofnjerta_totals", CTotals),
    ("gofnjerta_held", CHeld),
    ("gofnjerta_slots", CSlots),
]


def layout() -> List[Tuple[str, ...]]:
    """Where this module has each field, as gofnjerta_layout.h writes it: (structure, bytes, alignment), and behind it, for each of its
    fields, (structure, field, offset, bytes)."""
    lines: List[Tuple[str, ...]] = []
    for name, structure in STRUCTURES:
        lines.append((name, str(ctypes.sizeof(structure)), str(ctypes.alignment(structure))))
        for field in structure._fields_:
            place = getattr(structure, field[0])
            lines.append((name, field[0], str(place.offset), str(place.size)))
    return lines


_u8, _u16, _u32, _u64 = ctypes.c_uint8, ctypes.c_uint16, ctypes.c_uint32, ctypes.c_uint64
_size = ctypes.c_size_t
_bytes = ctypes.c_char_p
_at = ctypes.c_void_p

# What takes a record: a context, bytes and their length; it returns 0.
CWriter = ctypes.CFUNCTYPE(ctypes.c_int, ctypes.c_void_p, ctypes.c_void_p, _size)

# The calls on a handle, without `gofnjerta_`: what follows the handle. Each returns a number. Structures that a call writes, and buffers, go
# as pointers without a type, so that `byref` passes.
_CALLS: Dict[str, List[Any]] = {
    "open": [_at],
    "record": [_at, CWriter, _at],
    "close": [],
    "connect": [CAddress, _u8, _u32, _u32, _at],
    "submit": [CPeer, _u8, _u8, _bytes, _size],
    "broadcast": [_at, _size, _u8, _u8, _bytes, _size],
    "broadcast_each": [_at, _size, _u8, _u8, _bytes, _size, _at],
    "receive": [CAddress, _bytes, _size, _at],
    "service": [_at, _size, _at],
    "tick": [_u32],
    "due_in": [_at],
    "next_event": [_at],
    "body": [_at, _size],
    "disconnect": [CPeer, _u32],
    "disconnect_now": [CPeer, _u32],
    "disconnect_later": [CPeer, _u32],
    "set_bandwidth": [_u32, _u32],
    "set_secret": [_bytes],
    "give_way": [],
    "set_most": [_u16],
    "set_send_limit": [_u64, _u64],
    "throttle_configure": [CPeer, _u32, _u32, _u32],
    "set_ping_interval": [CPeer, _u32],
    "set_timeout": [CPeer, _u32, _u32, _u32],
    "read_peer": [CPeer, _at],
    "read_line": [CPeer, _at],
    "read_traffic": [CPeer, _at],
    "ending": [CPeer, _at],
    "read_allowance": [CPeer, _at],
    "read_totals": [_at],
    "read_held": [_at],
    "read_slots": [_at],
    "read_sent_again": [_at],
}


def _path() -> str:
    name = "libgofnjerta.so.0"
    folder = os.environ.get("GOFNJERTA_DIR")
    if folder:
        return os.path.join(folder, "lib", name)
    beside = os.path.join(os.path.dirname(os.path.abspath(__file__)), name)
    return beside if os.path.exists(beside) else name


def _load() -> ctypes.PyDLL:
    # PyDLL keeps the interpreter's lock during a call, so that two calls on one handle are never made at once.
    try:
        library = ctypes.PyDLL(_path())
    except OSError as error:
        ways = "install the wheel, or the package libgofnjerta0, or set GOFNJERTA_DIR to the folder that scripts/by-hand/build-c.sh made"
        raise ImportError(f"{error}; {ways}") from None
    for name, words in _CALLS.items():
        call = library["gofnjerta_" + name]
        call.argtypes = [_at, *words]
        call.restype = _u32
        setattr(library, "gofnjerta_" + name, call)
    library.gofnjerta_standard.argtypes = [_u16, _u8]
    library.gofnjerta_standard.restype = CConfig
    library.gofnjerta_version.argtypes = []
    library.gofnjerta_version.restype = _u32
    for text in (library.gofnjerta_error_name, library.gofnjerta_stop_name):
        text.argtypes = [_u32]
        text.restype = _bytes
    return library


lib = _load()
