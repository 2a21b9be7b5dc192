"""The maze router from Python: the calls of the shared library (make install-shared), by ctypes.

>>> table = Table(3)
>>> table.block(1, 2)
>>> table.block(3, 2)
>>> table.arm(7, 0)
>>> table.open(0, 0, 7, MAZE, 0b111)
Opened(hops=3, receive=0, scouts=5)
>>> table.trace(0, 0)
(1, 2, 0)

A refusal is an exception with its number and words, and a refused call changes nothing:

>>> table.open(0, 0, 7, MAZE, 0b111)
Traceback (most recent call last):
    ...
maze.Refused: 9: the send channel has an open circuit
>>> try:
...     table.open(0, 1, 7, MAZE, 0b001)
... except Refused as refused:
...     print(refused.number == NO_ROUTE, refused.scouts)
True 2

So is a number that no call takes: C would cut it to 16 bits.

>>> table.open(0, 65536, 7, MAZE, 0b111)
Traceback (most recent call last):
    ...
OverflowError: 65536 is not a number from 0 to 65535

A table is 8,705 bytes, a wide one 14,338; both can be stored and made again from their bytes:

>>> len(bytes(table)), len(bytes(table.widen()))
(8705, 14338)
>>> Table.of(bytes(table)) == table == table.widen().narrow()
True

The library is that of $MAZE_LIBRARY or, where this is not set, libmaze of the system. It has to be of the version of this module, in its first two numbers.
"""

import ctypes
import ctypes.util
import operator
import os
import tempfile
from collections import namedtuple

__version__ = "0.15.0"

MAZE, HELIX, FIXED, ALTERNATE_MAZE = 0, 1, 3, 4

ACCEPTED = 0
BAD_LENGTH = 1
BAD_DIMENSION = 2
NOT_SOUND = 3
BAD_NODE = 4
BAD_CHANNEL = 5
BAD_PORT = 6
BAD_ROUTING_TYPE = 7
BAD_SEND_VECTOR = 8
CHANNEL_IN_USE = 9
ROUTE_REJECTED = 10
RECEIVE_REJECTED = 11
NO_CIRCUIT = 12
LINK_HELD = 13
BUFFER_SHORT = 14
WORD_TOO_LARGE = 15
NOT_A_COMMAND = 16
WRONG_TYPE = 17
RESERVED_COMMAND = 18
CARRIED_TOO_LARGE = 19
UNREADABLE_LINE = 20
CHANNEL_HELD = 21
NO_ROUTE = 22
BOOK_SHORT = 23
FOLDED = 24
BAD_BOOK = 25
BAD_BOOK_CIRCUIT = 26
BAD_BOOK_LINK = 27
BAD_SEND_LIST = 28
BAD_HALVES = 29
CHANNEL_STOPPED = 30
BAD_REQUESTER = 31

_BYTES, _WIDE_BYTES = 8705, 14338
_CIRCUITS, _LINKS, _LINE, _TRACE = 2048, 4096, 6, 9
_u8, _u16, _u32, _size, _pointer = ctypes.c_uint8, ctypes.c_uint16, ctypes.c_uint32, ctypes.c_size_t, ctypes.c_void_p


def _load():
    series = __version__.rsplit(".", 1)[0]
    names = [os.environ["MAZE_LIBRARY"]] if os.environ.get("MAZE_LIBRARY") else [f"libmaze.so.{series}", ctypes.util.find_library("maze")]
    for name in names:
        if name:
            try:
                library = ctypes.PyDLL(name)
            except OSError as error:
                if os.path.exists(name):
                    raise ImportError(f"{name} cannot be loaded: {error}") from None
                continue
            if not hasattr(library, "maze_version"):
                raise ImportError(f"{name} has no maze_version, so it is no libmaze that this module is for")
            library.maze_version.restype = ctypes.c_char_p
            version = library.maze_version().decode()
            if version.rsplit(".", 1)[0] != series:
                raise ImportError(f"{name} is of version {version}, and this module of {__version__}")
            return library, ctypes.CDLL(name)
    raise ImportError(f"there is no {' and no '.join(n for n in names if n)}: make install-shared installs it, and MAZE_LIBRARY names it where it is elsewhere")


# A call keeps Python's lock, so that no other thread looks at a table while an open marks the links that it searches. An explanation, which may take minutes, is made without it, of a copy.
_library, _unlocked = _load()


def _struct(name, *fields):
    return type(name, (ctypes.Structure,), {"_fields_": fields})


_Opened = _struct("_Opened", ("number", _u16), ("hops", _u16), ("receive", _u16), ("scouts", _u32))
_OpenedAll = _struct("_OpenedAll", ("number", _u16), ("sends", _u16))
_Traced = _struct("_Traced", ("number", _u16), ("hops", _u16))
_Booked = _struct("_Booked", ("number", _u16), ("circuits", _u16), ("hops", _u16))
_Read = _struct("_Read", ("number", _u16), ("command", _u16), ("carried", _u16))
_Written = _struct("_Written", ("number", _u16), ("word", _u16))
_Arbiter = _struct("_Arbiter", ("last", _u16))
_Served = _struct("_Served", ("number", _u16), ("requester", _u16))
_Channel = _struct("_Channel", ("address", _u32), ("count", _u32), ("running", _u8), ("overflow", _u8), ("ignores", _u8))
_Received = _struct("_Received", ("channel", _Channel), ("number", _u16))
_Link = _struct("_Link", ("node", _u16), ("port", _u16))
_Explained = _struct(
    "_Explained",
    ("number", _u16), ("scouts", _u32), ("held", _u16), ("blocked", _u16), ("nearest_circuit", _u16), ("nearest_hops", _u16), ("nearest", _Link),
    ("types", _u16), ("ports", _u16), ("circuit", _u16), ("channels", _u16), ("arms", _u16),
)  # fmt: skip


def _call(name, answer, *arguments, library=_library):
    function = getattr(library, "maze_" + name)
    function.restype, function.argtypes = answer, arguments
    return function


_table, _numbers = (_pointer, _size), (_u16, _u16, _u16, _u16, _u16)


def _twins(name, answer, *arguments, library=_library):
    return _call(name, answer, *arguments, library=library), _call("wide_" + name, answer, *arguments, library=library)


_make = _twins("make", _u16, *_table, _u16)
_pairs = {name: _twins(name, _u16, *_table, _u16, _u16) for name in ("block", "unblock", "arm", "disarm", "close")}
_open = _twins("open", _Opened, *_table, *_numbers)
_open_all = _twins("open_all", _OpenedAll, *_table, *_table)
_trace = _twins("trace", _Traced, *_table, _u16, _u16, *_table)
_book = _twins("book", _Booked, *_table, *_table, *_table)
_judge = _twins("judge", _u16, *_table, *_table, *_table, _u16, _u16)
_check = _twins("check_table", ctypes.c_uint, *_table)
_node_count = _twins("node_count", ctypes.c_uint, _pointer)
_reads = {
    name: _twins(name, ctypes.c_uint, _pointer, ctypes.c_uint, ctypes.c_uint)
    for name in ("link_node", "link_enabled", "link_circuit", "receive_armed", "receive_circuit")
}
_lookup = _call("book_lookup", _Traced, *_table, *_table, _u16, _u16, _u16, *_table)
_join = _call("join", _u16, *_table, *_table, *_table)
_fold = _call("wide_fold", _u16, *_table, _u16)
_fold_mask = _call("wide_fold_mask", ctypes.c_uint, _pointer)
_widen, _narrow = _call("widen", _u16, *_table, *_table), _call("narrow", _u16, *_table, *_table)
_word_read, _word_write = _call("word_read", _Read, _u16), _call("word_write", _Written, _u16, _u16)
_arbitrate = _call("arbitrate", _Served, ctypes.POINTER(_Arbiter), _u32)
_receive_start, _receive_data = _call("receive_start", _Channel, _u32, _u32, _u16), _call("receive_data", _Received, _Channel)
_receive_word, _receive_overshoot = _call("receive_word", _Received, _Channel, _u16), _call("receive_overshoot", _u32, _Channel)
_refusal_text, _word_text = _call("refusal_text", ctypes.c_char_p, ctypes.c_uint), _call("word_text", ctypes.c_char_p, ctypes.c_uint, ctypes.c_uint)
_explain = _twins("explain", _Explained, *_table, *_numbers, library=_unlocked)
_closes = _twins("explain_closes", ctypes.c_uint, *_table, *_numbers, _pointer, ctypes.c_uint, library=_unlocked)
_repairs = _twins("explain_repairs", ctypes.c_uint, *_table, *_numbers, _pointer, ctypes.c_uint, library=_unlocked)

Opened = namedtuple("Opened", "hops receive scouts")
Circuit = namedtuple("Circuit", "node channel target receive ports")
Link = namedtuple("Link", "to enabled holder")
Receive = namedtuple("Receive", "armed holder")
Explained = namedtuple("Explained", "number scouts held blocked nearest types ports channels arms closes repairs")


class Refused(Exception):
    """A call was refused: `number`, and `text`, its words; after 10, 11 and 22 of an open `scouts`; of a job `place`, from 0, of the send refused."""

    def __init__(self, number, scouts=None, place=None):
        self.number, self.text, self.scouts, self.place = number, text(number), scouts, place
        super().__init__(f"{number}: {self.text}")

    def __reduce__(self):
        return Refused, (self.number, self.scouts, self.place)


def text(number):
    """The words of a refusal number.

    >>> text(13)
    'a circuit holds the link'
    """
    return _refusal_text(_within(number, 65535)).decode()


def _within(number, most):
    number = operator.index(number)
    if not 0 <= number <= most:
        raise OverflowError(f"{number} is not a number from 0 to {most}")
    return number


def partner(port):
    """The partner of a port, which the nodes have where its dimension is folded.

    >>> partner(0), partner(10)
    (17, 7)
    """
    return 17 - _within(port, 17)


def _16(*numbers):
    return [_within(number, 65535) for number in numbers]


def _send(node, channel, target, type, vector):
    return _16(node, channel, target, type, vector)


def _accept(number):
    if number:
        raise Refused(number)


def _umask():
    mask = os.umask(0)
    os.umask(mask)
    return mask


def _content(content):
    """The bytes of what has some; a number has none, though bytes() would take it for so many zeros."""
    if hasattr(content, "__index__"):
        raise TypeError(f"{content!r} is no bytes")
    return bytes(content)


def _buffer(content):
    return (_u8 * len(content)).from_buffer_copy(content) if content else (_u8 * 0)()


def _bits(mask):
    return tuple(bit for bit in range(16) if mask >> bit & 1)


def _holder(circuit):
    return divmod(circuit - 1, 8) if circuit else None


class Table:
    """The table of one cube. Each call is that of the library, and raises Refused where it is refused. A circuit is named by its source and send channel, as (4, 2).
    Threads may share a table: as long as Python has its global lock, one call on it is made after another.

    >>> table = Table(2, wide=True)
    >>> table.dimension, table.nodes, table.wide
    (2, 4, True)
    >>> Table(9)
    Traceback (most recent call last):
        ...
    maze.Refused: 2: the dimension, given or stored, is not 1 to 8
    """

    def __init__(self, dimension=1, wide=False):
        self._bytes = (_u8 * (_WIDE_BYTES if wide else _BYTES))()
        self._wide = bool(wide)
        _accept(_make[self._wide](*self._lent, *_16(dimension)))

    @classmethod
    def of(cls, content):
        """The table that these bytes are; they are tested.

        >>> Table.of(bytes(8705))
        Traceback (most recent call last):
            ...
        maze.Refused: 2: the dimension, given or stored, is not 1 to 8
        """
        table, content = cls.__new__(cls), _content(content)
        table._bytes, table._wide = _buffer(content), len(content) == _WIDE_BYTES
        _accept(_check[table._wide](*table._lent))
        return table

    @classmethod
    def read(cls, name):
        """The table saved in a file."""
        with open(name, "rb") as file:
            return cls.of(file.read(_WIDE_BYTES + 1))

    def write(self, name):
        """Saves the table: in a new file beside the old one, brought onto the disk, which then takes its name. Whenever the machine stops, one of the two is there, and once this is done the new one.

        >>> import tempfile, os
        >>> with tempfile.TemporaryDirectory() as folder:
        ...     Table(3).write(os.path.join(folder, "table"))
        ...     Table.read(os.path.join(folder, "table")) == Table(3), os.listdir(folder)
        (True, ['table'])
        """
        name = os.path.realpath(name)
        with tempfile.NamedTemporaryFile(dir=os.path.dirname(name), prefix=os.path.basename(name) + ".", delete=False) as file:
            try:
                file.write(bytes(self))
                file.flush()
                os.fchmod(file.fileno(), os.stat(name).st_mode & 0o777 if os.path.exists(name) else 0o666 & ~_umask())
                os.fsync(file.fileno())
                os.replace(file.name, name)
            except BaseException:
                os.unlink(file.name)
                raise
        # the name is brought onto the disk too, where the file system can do that
        folder = os.open(os.path.dirname(name), os.O_RDONLY)
        try:
            os.fsync(folder)
        except OSError:
            pass
        finally:
            os.close(folder)

    @property
    def _lent(self):
        return self._bytes, len(self._bytes)

    def __bytes__(self):
        return bytes(self._bytes)

    def __eq__(self, other):
        return bytes(self) == bytes(other) if isinstance(other, Table) else NotImplemented

    __hash__ = None

    def __reduce__(self):
        return type(self).of, (bytes(self),)

    def __repr__(self):
        return f"<{'wide ' if self._wide else ''}table of dimension {self.dimension}, {len(self.circuits())} circuits open>"

    def copy(self):
        return Table.of(bytes(self))

    @property
    def wide(self):
        return self._wide

    @property
    def dimension(self):
        return self._bytes[0]

    @property
    def nodes(self):
        return _node_count[self._wide](self._bytes)

    def _pair(self, name, node, other):
        _accept(_pairs[name][self._wide](*self._lent, *_16(node, other)))

    def block(self, node, port):
        """Blocks the link out of a port of a node, in that direction alone."""
        self._pair("block", node, port)

    def unblock(self, node, port):
        """Enables the link out of a port of a node, in that direction alone."""
        self._pair("unblock", node, port)

    def arm(self, node, channel):
        """Arms a receive channel of a node: an open may take it."""
        self._pair("arm", node, channel)

    def disarm(self, node, channel):
        """Disarms a receive channel of a node that no circuit holds."""
        self._pair("disarm", node, channel)

    def close(self, node, channel):
        """Closes the circuit of a send channel of a node, and disarms its receive channel."""
        self._pair("close", node, channel)

    def open(self, node, channel, target, type, vector):
        """Opens the circuit of a send channel of a node to a target: its hops, the receive channel that it took, and the scouts that were sent."""
        opened = _open[self._wide](*self._lent, *_16(node, channel, target, type, vector))
        if opened.number:
            raise Refused(opened.number, opened.scouts if opened.number in (ROUTE_REJECTED, RECEIVE_REJECTED, NO_ROUTE) else None)
        return Opened(opened.hops, opened.receive, opened.scouts)

    def open_all(self, sends):
        """Opens the circuits of a job, all or none: a list of (node, channel, target, type, vector), 64 at most.

        >>> table = Table(3)
        >>> table.arm(7, 0)
        >>> try:
        ...     table.open_all([(0, 0, 7, MAZE, 7), (4, 0, 7, MAZE, 3)])
        ... except Refused as refused:
        ...     print(refused.number, refused.place, table.circuits())
        11 1 []
        >>> table.arm(7, 1)
        >>> table.open_all([(0, 0, 7, MAZE, 7), (4, 0, 7, MAZE, 3)])
        2
        """
        listed = b"".join(number.to_bytes(2, "little") for send in sends for number in _send(*send))
        given = _buffer(listed)
        opened = _open_all[self._wide](*self._lent, given, len(listed))
        if opened.number:
            raise Refused(opened.number, place=opened.sends)
        return opened.sends

    def trace(self, node, channel):
        """The ports of the circuit of a send channel of a node, in path order."""
        ports = (_u8 * _TRACE)()
        traced = _trace[self._wide](*self._lent, *_16(node, channel), ports, _TRACE)
        _accept(traced.number)
        return tuple(ports[: traced.hops])

    def book(self):
        """The book of all open circuits."""
        ports, index = (_u8 * _LINKS)(), (_u8 * (_CIRCUITS * _LINE))()
        booked = _book[self._wide](*self._lent, ports, len(ports), index, len(index))
        _accept(booked.number)
        return Book(bytes(ports[: booked.hops]), bytes(index[: booked.circuits * _LINE]))

    def judge(self, book):
        """Judges a book, whoever wrote it: Refused where its circuits may not be open here, all of them.

        >>> table = Table(1)
        >>> table.arm(1, 0)
        >>> opened = table.open(0, 0, 1, MAZE, 1)
        >>> book = table.book()
        >>> table.close(0, 0)
        >>> table.judge(book)
        Traceback (most recent call last):
            ...
        maze.Refused: 11: too few receive channels of a node are armed and not held
        >>> table.arm(1, 0)
        >>> table.judge(book)
        """
        _accept(_judge[self._wide](*self._lent, *book._lent, *book._counts))

    def join(self, other):
        """The table of two cubes of one dimension joined: node n of the other is node n + 2^D of it. Both are narrow.

        >>> joined = Table(2).join(Table(2))
        >>> joined.dimension
        3
        """
        joined = Table()
        if self._wide or other._wide:
            raise Refused(BAD_LENGTH)
        _accept(_join(*self._lent, *other._lent, *joined._lent))
        return joined

    def widen(self):
        """A wide table that says the same."""
        wide = Table(wide=True)
        _accept(_widen(*self._lent, *wide._lent))
        return wide

    def narrow(self):
        """A narrow table that says the same; where a dimension is folded none does."""
        narrow = Table()
        _accept(_narrow(*self._lent, *narrow._lent))
        return narrow

    @property
    def fold_mask(self):
        """Bit p is set where dimension p is folded; of a narrow table 0."""
        return _fold_mask(self._bytes) if self._wide else 0

    def fold(self, mask):
        """Folds the dimensions of a wide table whose bits are set in the mask, and no others: port p has then a partner, port 17 - p, that leads to the same node.

        >>> table = Table(1, wide=True)
        >>> table.fold(0b1)
        >>> table.arm(1, 0); table.arm(1, 1)
        >>> opened = [table.open(0, channel, 1, MAZE, 1) for channel in (0, 1)]
        >>> table.trace(0, 0), table.trace(0, 1), table.link(0, partner(0)).holder, table.fold_mask
        ((0,), (17,), (0, 1), 1)
        >>> table.fold(0)
        Traceback (most recent call last):
            ...
        maze.Refused: 13: a circuit holds the link
        """
        _accept(_fold(*self._lent, *_16(mask)))

    def _read(self, name, node, other):
        return _reads[name][self._wide](self._bytes, *_16(node, other))

    def link(self, node, port):
        """The link out of a port: where it leads, whether it is enabled, and the circuit that holds it; None where the cube has no such link.

        >>> table = Table(1)
        >>> table.block(1, 0)
        >>> table.link(0, 0), table.link(1, 0), table.link(2, 0)
        (Link(to=1, enabled=True, holder=None), Link(to=0, enabled=False, holder=None), None)
        """
        to = self._read("link_node", node, port)
        return None if to >= self.nodes else Link(to, bool(self._read("link_enabled", node, port)), _holder(self._read("link_circuit", node, port)))

    def receive(self, node, channel):
        """A receive channel: whether it is armed, and the circuit that holds it; None where the cube has no such channel."""
        node, channel = _16(node, channel)
        if node >= self.nodes or channel >= 8:
            return None
        return Receive(bool(self._read("receive_armed", node, channel)), _holder(self._read("receive_circuit", node, channel)))

    def circuits(self):
        """The open circuits, in order of source and send channel.

        >>> table = Table(3)
        >>> table.arm(7, 3)
        >>> opened = table.open(0, 0, 7, MAZE, 2)
        >>> table.circuits()
        [Circuit(node=0, channel=0, target=7, receive=3, ports=(1, 2, 0))]
        """
        found = []
        for node in range(self.nodes):
            for channel in range(8):
                circuit = self._read("receive_circuit", node, channel)
                if circuit:
                    found.append(Circuit(*_holder(circuit), node, channel, self.trace(*_holder(circuit))))
        return sorted(found)

    def explain(self, node, channel, target, type, vector):
        """Why an open would be refused, and what would help, as maze_explain(3) has it.

        >>> table = Table(3)
        >>> table.arm(7, 0)
        >>> opened = table.open(0, 0, 7, MAZE, 1)
        >>> table.arm(7, 1)
        >>> told = table.explain(0, 1, 7, MAZE, 1)
        >>> told.number, told.held, told.nearest, told.closes, told.ports
        (10, 1, (0, 0), [(0, 0)], (1, 2))
        """
        copy, send = _buffer(bytes(self)), _16(node, channel, target, type, vector)
        lent = copy, len(copy)
        told = _explain[self._wide](*lent, *send)
        closes, repairs = (_u16 * _CIRCUITS)(), (_Link * _LINKS)()
        close_count, repair_count = _closes[self._wide](*lent, *send, closes, _CIRCUITS), _repairs[self._wide](*lent, *send, repairs, _LINKS)
        return Explained(
            told.number, told.scouts, told.held, told.blocked, _holder(told.nearest_circuit), _bits(told.types), _bits(told.ports), _bits(told.channels), _bits(told.arms),
            [_holder(circuit) for circuit in closes[:close_count]], [(link.node, link.port) for link in repairs[:repair_count]],
        )  # fmt: skip


class Book:
    """A book of circuits: the bytes of its ports and of its index. It may come from anywhere, and is tested where it is used.

    >>> table = Table(3)
    >>> table.arm(7, 3)
    >>> opened = table.open(4, 2, 7, MAZE, 1)
    >>> book = table.book()
    >>> book.lookup(4, 2), list(book)
    ((0, 1), [(4, 2, (0, 1))])
    >>> book.lookup(4, 3)
    Traceback (most recent call last):
        ...
    maze.Refused: 12: the send channel has no open circuit
    >>> Book(b"", b"123456").lookup(4, 2)
    Traceback (most recent call last):
        ...
    maze.Refused: 25: the book is not well formed
    """

    def __init__(self, ports, index):
        self.ports, self.index = _content(ports), _content(index)
        self._held = _buffer(self.ports), _buffer(self.index)
        self._lent = self._held[0], len(self.ports), self._held[1], len(self.index)
        # a line that is cut short counts too, so that the index is too short for what it has, and the book not well formed
        self._counts = _16(-(-len(self.index) // _LINE), len(self.ports))

    def __len__(self):
        return self._counts[0]

    def __eq__(self, other):
        return (self.ports, self.index) == (other.ports, other.index) if isinstance(other, Book) else NotImplemented

    __hash__ = None

    def lookup(self, node, channel):
        """The ports of the circuit of a send channel of a node."""
        ports = (_u8 * _TRACE)()
        node, channel = _16(node, channel)
        if channel >= 8:
            raise Refused(BAD_CHANNEL)
        # no book has a circuit of a node that far up
        found = _lookup(*self._lent, *self._counts, min(8 * node + channel + 1, 65535), ports, _TRACE)
        _accept(found.number)
        return tuple(ports[: found.hops])

    def __iter__(self):
        for at in range(0, len(self) * _LINE, _LINE):
            circuit = int.from_bytes(self.index[at : at + 2], "little")
            node, channel = divmod(circuit - 1, 8)
            yield node, channel, self.lookup(node, channel)


def read_word(word):
    """A command word taken apart: its command, what it carries, and what it says.

    >>> read_word(2546)
    (7, 50, 'end-to-end not acknowledged')
    >>> read_word(1024)
    Traceback (most recent call last):
        ...
    maze.Refused: 16: the packet type is 0 or 1
    """
    read = _word_read(*_16(word))
    _accept(read.number)
    return read.command, read.carried, _word_text(read.command, read.carried).decode()


def write_word(command, carried=0):
    """The word of a command that carries a number.

    >>> write_word(6, 5)
    2437
    """
    written = _word_write(*_16(command, carried))
    _accept(written.number)
    return written.word


class Arbiter:
    """The arbiter of a board: serves the first of 26 requesters that asks after the one served last.

    >>> arbiter = Arbiter()
    >>> [arbiter.serve(1 << 2 | 1 << 18) for call in range(3)], arbiter.serve(0)
    ([2, 18, 2], None)
    """

    def __init__(self, last=25):
        self._record = _Arbiter(*_16(last))

    @property
    def last(self):
        return self._record.last

    def serve(self, requests):
        """The requester that is served, or None where nobody asks; bit r of the requests is set where requester r asks."""
        served = _arbitrate(ctypes.byref(self._record), _within(requests, 0xFFFFFFFF))
        _accept(served.number)
        return None if served.requester == 26 else served.requester


class ReceiveChannel:
    """A receive channel that takes the packets of its circuit.

    >>> channel = ReceiveChannel(4096, 1)
    >>> channel.data(); channel.data()
    >>> channel.word(write_word(9, 1))
    >>> channel.address, channel.overshoot, channel.running
    (4104, 1, False)
    >>> channel.data()
    Traceback (most recent call last):
        ...
    maze.Refused: 30: the receive channel is stopped
    """

    def __init__(self, address, count, ignores=False):
        self._state = _receive_start(_within(address, 0xFFFFFFFF), _within(count, 0xFFFFFFFF), bool(ignores))

    def _take(self, received):
        _accept(received.number)
        self._state = received.channel

    def data(self):
        """A data packet."""
        self._take(_receive_data(self._state))

    def word(self, word):
        """A command word."""
        self._take(_receive_word(self._state, *_16(word)))

    address = property(lambda self: self._state.address)
    count = property(lambda self: self._state.count)
    running = property(lambda self: bool(self._state.running))
    overflow = property(lambda self: bool(self._state.overflow))
    overshoot = property(lambda self: _receive_overshoot(self._state))
