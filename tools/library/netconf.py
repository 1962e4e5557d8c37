# SPDX-License-Identifier: Apache-2.0
"""netconf's library from Python: a description is opened, buffers are granted and revoked, and what is to be written to
the translation units for each change is told as events.

    with netconf.Session(text) as session:
        card, dram = session.node("card"), session.node("dram")
        address = session.grant(1, card, dram, 0x9000, 0x1000)
        for event in session.pending():
            ...
        session.settle()

The shared object is `libnetconf.so`, which tools/library/install makes: the one beside this file, or else the one that
the dynamic loader finds. It takes memory from malloc. docs/library.md states what the calls promise."""

import ctypes
import enum
import pathlib
import threading
from types import TracebackType
from typing import NamedTuple

__all__ = ["Access", "Error", "Event", "Kind", "Piece", "Place", "Rights", "Row", "Session", "Status", "run"]

LINE = 512
"""How many bytes the line of a refusal has at first."""

TOGETHER = 64
"""How many events are read at once."""


class Status(enum.IntEnum):
    """What a call answers, as enum netconf_status of netconf.h."""
    DONE = 0
    CLOSED = 1
    BAD_ARGUMENT = 2
    NO_MEMORY = 3
    TOO_SMALL = 4
    REFUSED = 5
    ID_USED = 16
    NO_AGENT = 17
    NO_TARGET = 18
    NOT_ACCEPTED = 19
    BOOK_FULL = 20
    NO_PLACEMENT = 21
    NO_GRANT = 22
    NO_NODE = 23
    IMAGE_SHORT = 24
    IMAGE_HEADER = 25
    IMAGE_SHAPE = 26
    IMAGE_TRAILING = 27


class Rights(enum.IntFlag):
    """The accesses that a grant gives."""
    READ = 1
    WRITE = 2


class Access(enum.IntEnum):
    """What is asked of an address."""
    READ = 1
    WRITE = 2


class Kind(enum.IntEnum):
    """What an event is: a unit is made with so many words, all 0; a word is set; or a fence."""
    MAKE = 0
    WRITE_WORD = 1
    FENCE = 2


class Event(NamedTuple):
    """What is to be done to the hardware: `unit` is the number of the unit's node, `word` the number of a word, or,
    where a unit is made, how many words it has."""
    kind: Kind
    unit: int
    word: int
    value: int


class Place(NamedTuple):
    """A node, by its number, and an address in it."""
    node: int
    address: int


class Piece(NamedTuple):
    """A piece of a buffer: the id of its grant, the number of its node, its first address there and its size."""
    number: int
    node: int
    base: int
    size: int


class Row(NamedTuple):
    """Addresses that lead to a node, one after another; the first of them leads to `place`."""
    first: int
    last: int
    place: Place


class Error(Exception):
    """A call that was not done. `status` says why; of a text that is refused, the message is the line of the
    refusal."""

    def __init__(self, status: Status, why: str = "") -> None:
        super().__init__(why or status.name.lower().replace("_", " "))
        self.status = status


class _Held(ctypes.Structure):
    _fields_ = [("held", ctypes.c_void_p)]


class _Event(ctypes.Structure):
    _fields_ = [("kind", ctypes.c_uint32), ("unit", ctypes.c_uint32), ("word", ctypes.c_uint32),
                ("unused", ctypes.c_uint32), ("value", ctypes.c_uint64)]


class _Place(ctypes.Structure):
    _fields_ = [("node", ctypes.c_uint32), ("unused", ctypes.c_uint32), ("address", ctypes.c_uint64)]


class _Piece(ctypes.Structure):
    _fields_ = [("number", ctypes.c_uint32), ("node", ctypes.c_uint16), ("unused", ctypes.c_uint16),
                ("base", ctypes.c_uint64), ("size", ctypes.c_uint64)]


class _Row(ctypes.Structure):
    _fields_ = [("first", ctypes.c_uint64), ("last", ctypes.c_uint64), ("place", _Place)]


def _library(path: str | pathlib.Path | None) -> ctypes.CDLL:
    """The shared object, with the types of its calls."""
    beside = pathlib.Path(__file__).with_name("libnetconf.so")
    library = ctypes.CDLL(str(path or (beside if beside.exists() else "libnetconf.so")))
    held, size, sizes = ctypes.POINTER(_Held), ctypes.c_size_t, ctypes.POINTER(ctypes.c_size_t)
    byte, half, word, long = ctypes.c_uint8, ctypes.c_uint16, ctypes.c_uint32, ctypes.c_uint64
    grant: list[type] = [held, word, half, half, long, long, byte]
    calls: dict[str, list[type]] = {
        "open": [held, ctypes.c_char_p, size, ctypes.c_char_p, size, sizes],
        "node": [held, ctypes.c_char_p, size, ctypes.POINTER(half)],
        "name": [held, half, ctypes.c_char_p, size, sizes],
        "grant": [*grant, ctypes.POINTER(long)],
        "grant_at": [*grant, long, ctypes.POINTER(long)],
        "gather": [held, half, ctypes.POINTER(_Piece), size, byte, ctypes.POINTER(long), ctypes.POINTER(word)],
        "route": [held, word, half, long, half, ctypes.POINTER(long)],
        "revoke": [held, word],
        "resolve": [held, half, long, byte, ctypes.POINTER(_Place), size, sizes],
        "view": [held, half, byte, size, ctypes.POINTER(_Row), size, sizes],
        "image": [held, ctypes.c_char_p, size, sizes],
        "lookup": [held, ctypes.c_char_p, size, half, long, byte, ctypes.POINTER(_Place), size, sizes,
                   ctypes.POINTER(long)],
        "audit": [held, ctypes.c_char_p, size, ctypes.c_char_p, size, sizes, ctypes.POINTER(long)],
        "run": [ctypes.c_char_p, size, ctypes.c_char_p, size, sizes, ctypes.POINTER(byte)],
        "pending": [held, size, ctypes.POINTER(_Event), size, sizes],
        "settle": [held],
        "close": [held]}
    for name, types in calls.items():
        call = getattr(library, f"netconf_{name}")
        call.argtypes = types
        call.restype = None if name == "close" else word
    return library


class Session:
    """An open description with its live grants. Calls of several threads are made one at a time."""

    def __init__(self, text: str | bytes, library: str | pathlib.Path | None = None) -> None:
        """Opens a description; `library` is the path of the shared object. Raises Error where the text is refused or
        there is no memory, and OSError where there is no shared object."""
        self._held = _Held()
        self._lock = threading.Lock()
        self._library = _library(library)
        content = text.encode() if isinstance(text, str) else text
        room, written = LINE, ctypes.c_size_t()
        while True:
            line = ctypes.create_string_buffer(room)
            status = Status(self._library.netconf_open(self._held, content, len(content), line, room, written))
            if status != Status.TOO_SMALL:
                break
            room = written.value
        if status != Status.DONE:
            refusal = line.raw[:written.value].decode(errors="replace") if status == Status.REFUSED else ""
            raise Error(status, refusal)

    def _call(self, name: str, *words: object) -> None:
        """Makes a call on the session. Raises Error where it is not done."""
        with self._lock:
            status = Status(getattr(self._library, f"netconf_{name}")(self._held, *words))
        if status != Status.DONE:
            raise Error(status)

    def node(self, name: str) -> int:
        """The number of the node of a full name."""
        number, content = ctypes.c_uint16(), name.encode()
        self._call("node", content, len(content), number)
        return number.value

    def name(self, node: int) -> str:
        """The full name of a node."""
        return self._text("name", _in_range(node, 16)).decode()

    def grant(self, number: int, agent: int, node: int, base: int, size: int,
              rights: Rights = Rights.READ | Rights.WRITE, at: int | None = None) -> int:
        """Grants a buffer of a node under an id, at an address of the agent where one is given, and returns the agent's
        address of it."""
        address = ctypes.c_uint64()
        words = (_in_range(number, 32), _in_range(agent, 16), _in_range(node, 16), _in_range(base, 64),
                 _in_range(size, 64), _in_range(int(rights), 8))
        if at is None:
            self._call("grant", *words, address)
        else:
            self._call("grant_at", *words, _in_range(at, 64), address)
        return address.value

    def gather(self, agent: int, pieces: list[Piece], rights: Rights = Rights.READ | Rights.WRITE) -> int:
        """Grants a buffer in pieces, and returns the agent's address of the first."""
        address, refused = ctypes.c_uint64(), ctypes.c_uint32()
        listed = (_Piece * len(pieces))(*(_Piece(_in_range(piece.number, 32), _in_range(piece.node, 16), 0,
                                                 _in_range(piece.base, 64), _in_range(piece.size, 64))
                                          for piece in pieces))
        self._call("gather", _in_range(agent, 16), listed, len(pieces), _in_range(int(rights), 8), address, refused)
        return address.value

    def route(self, number: int, agent: int, line: int, node: int) -> int:
        """Routes a line of an agent to a vector of a node under an id, and returns the vector."""
        vector = ctypes.c_uint64()
        words = _in_range(number, 32), _in_range(agent, 16), _in_range(line, 64), _in_range(node, 16)
        self._call("route", *words, vector)
        return vector.value

    def revoke(self, number: int) -> None:
        """Takes the grant or the route of an id out."""
        self._call("revoke", _in_range(number, 32))

    def resolve(self, node: int, address: int, access: Access) -> list[Place]:
        """The places to which an address of a node leads."""
        return self._places("resolve", (_in_range(node, 16), _in_range(address, 64), int(access)), ())

    def lookup(self, image: bytes, agent: int, address: int, access: Access) -> list[Place]:
        """The places to which an address of an agent leads under an image."""
        words = image, len(image), _in_range(agent, 16), _in_range(address, 64), int(access)
        return self._places("lookup", words, (ctypes.c_uint64(),))

    def _places(self, name: str, words: tuple[object, ...], more: tuple[object, ...]) -> list[Place]:
        """The places that a call tells, in as much room as they need."""
        room, count = 4, ctypes.c_size_t(5)
        while count.value > room:
            room = max(room, count.value)
            places = (_Place * room)()
            self._call(name, *words, places, room, count, *more)
        return [Place(place.node, place.address) for place in places[:count.value]]

    def view(self, node: int, access: Access) -> list[Row]:
        """The rows of what a node sees, by ascending addresses."""
        room, count = 16, ctypes.c_size_t(17)
        while count.value > room:
            room = max(room, count.value)
            rows = (_Row * room)()
            self._call("view", _in_range(node, 16), int(access), 0, rows, room, count)
        return [Row(row.first, row.last, Place(row.place.node, row.place.address)) for row in rows[:count.value]]

    def image(self) -> bytes:
        """The image of the tables."""
        return self._text("image")

    def audit(self, image: bytes) -> str:
        """The report on what all agents see under an image, as `netconf audit` prints it."""
        return self._text("audit", image, len(image), more=(ctypes.c_uint64(),)).decode()

    def _text(self, name: str, *words: object, more: tuple[object, ...] = ()) -> bytes:
        """What a call writes, in as much room as it needs."""
        room, written = 256, ctypes.c_size_t()
        while True:
            out = ctypes.create_string_buffer(room)
            try:
                self._call(name, *words, out, room, written, *more)
            except Error as error:
                if error.status != Status.TOO_SMALL:
                    raise
                room = written.value
            else:
                return out.raw[:written.value]

    def pending(self) -> list[Event]:
        """The events that were caused since the session was opened or settled, in order."""
        events: list[Event] = []
        some, count = (_Event * TOGETHER)(), ctypes.c_size_t(TOGETHER)
        while count.value == TOGETHER:
            self._call("pending", len(events), some, TOGETHER, count)
            events += [Event(Kind(event.kind), event.unit, event.word, event.value) for event in some[:count.value]]
        return events

    def settle(self) -> None:
        """Says that all pending events were performed."""
        self._call("settle")

    def close(self) -> None:
        """Lets the session go. Each later call raises Error with the status CLOSED."""
        with self._lock:
            self._library.netconf_close(self._held)

    def __enter__(self) -> "Session":
        return self

    def __exit__(self, kind: type[BaseException] | None, error: BaseException | None,
                 trace: TracebackType | None) -> None:
        self.close()

    def __del__(self) -> None:
        if getattr(self, "_library", None) is not None:
            self.close()


def run(text: str | bytes, library: str | pathlib.Path | None = None) -> tuple[int, bytes]:
    """Answers a text as the program does: the status with which it would end, and what it would print. Raises Error
    where there is no memory."""
    calls, content = _library(library), text.encode() if isinstance(text, str) else text
    room, written, ended = 4096, ctypes.c_size_t(), ctypes.c_uint8()
    while True:
        out = ctypes.create_string_buffer(room)
        status = Status(calls.netconf_run(content, len(content), out, room, written, ended))
        if status == Status.DONE:
            return ended.value, out.raw[:written.value]
        if status != Status.TOO_SMALL:
            raise Error(status)
        room = written.value


def _in_range(number: int, bits: int) -> int:
    """A number that has so many bits. ctypes takes any other without a word, by its lowest bits."""
    if not 0 <= number < 1 << bits:
        raise ValueError(f"{number} is not a number of {bits} bits")
    return number
