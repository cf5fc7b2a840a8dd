"""An incremental expander of Rust's declarative macros, over a library that is proved.

>>> with Session("macro_rules! p { ($a:ident $b:tt) => { $b $a } } p!{ x y }") as session:
...     expansion = session.expand()
...     expansion.printed, expansion.expanded
('y x\\n', 1)

Ranges are of bytes of UTF-8. A range of the text has to begin and end at character boundaries.
The shared library is libfilgordd.so beside this file, as the wheel of a release has it, or what
FILGORDD_LIBRARY names. Importing raises ImportError where it is of another version.
"""

from __future__ import annotations

import ctypes
import operator
import os
import threading
import weakref
from array import array
from collections.abc import Iterable, Iterator, Sequence
from contextlib import contextmanager
from enum import IntEnum
from types import TracebackType
from typing import Any, NamedTuple, NoReturn, overload

__all__ = [
    "Code",
    "Expansion",
    "Fault",
    "FaultKind",
    "Grammar",
    "Position",
    "Range",
    "ReadFault",
    "ReadFaultKind",
    "Refused",
    "Session",
    "Token",
    "Tokens",
    "Unread",
    "version",
]


__version__ = "0.1.0"


def _told_words(name: str, *number: int) -> str:
    """The words that the library has for a number, or the version."""
    room, length = ctypes.create_string_buffer(64), ctypes.c_size_t()
    code = getattr(_library, f"filgordd_raw_{name}")(*number, room, 64, ctypes.byref(length))
    if code:
        raise Refused(Code(code))
    return str(room.raw[: length.value], "ascii")


def version() -> str:
    """The version of the library, which is that of this package.

    >>> version() == __version__
    True
    """
    return _told_words("version")


class Code(IntEnum):
    """Why a call is refused, by the numbers of filgordd.h.

    >>> Code.BOUNDARY.words
    'an offset is within a character'
    """

    UNREAD = 1
    MEMORY = 2
    TOKENS = 3
    NUMBERS = 4
    CLOSED = 5
    UTF8 = 6
    LENGTH = 7
    EDITION = 8
    GRAMMAR = 9
    BOUNDARY = 10
    RANGE = 11
    NOTHING = 12
    INDEX = 13
    ROOM = 14
    ROOT = 16
    SOURCE = 17
    SCOPE = 18
    CFG = 19

    @property
    def words(self) -> str:
        """The words that the library has for it."""
        return _told_words("code_words", self)


class Grammar(IntEnum):
    """What fragments such as `$e:expr` take.

    That of Rust, in the edition of the session, knows all fragments. The small one has no
    statements, no items, no closures and no control flow.
    """

    SMALL = 0
    RUST = 1


class FaultKind(IntEnum):
    """What a fault is.

    >>> FaultKind.CANNOT_EXPAND.words
    'no rule matches this call'
    """

    CANNOT_EXPAND = 0
    BROKEN_DEFINITION = 1
    RECURSION_LIMIT = 2
    NESTED_DEFINITION = 3
    UNSPELLABLE = 4
    TOO_LARGE = 5

    @property
    def words(self) -> str:
        """The words that `filgordd expand` prints for it."""
        return _told_words("fault_words", self)


class ReadFaultKind(IntEnum):
    """Why a text cannot be read as trees.

    >>> ReadFaultKind.GROUP_LEFT_OPEN.words
    'group left open'
    """

    BAD_TOKEN = 0
    CLOSER_DOES_NOT_FIT = 1
    GROUP_LEFT_OPEN = 2

    @property
    def words(self) -> str:
        """The words that `filgordd expand` prints for it."""
        return _told_words("reading_fault_words", self)


class Range(NamedTuple):
    """Bytes of a text, from `start` up to, but not including, `end`."""

    start: int
    end: int


class Position(NamedTuple):
    """The line and the byte column of a byte, both from 1, as `filgordd expand` prints them.

    Lines end at line feeds.
    """

    line: int
    column: int


class Token(NamedTuple):
    """A printed token: its bytes in the printed text, and those of the text that it comes from.

    That is the session's text, or the source that `Expansion.sources` tells.
    """

    range: Range
    origin: Range


class Fault(NamedTuple):
    """A fault, and the bytes of the text that it is reported at."""

    kind: FaultKind
    range: Range


class ReadFault(NamedTuple):
    """The first fault of a text that cannot be read, and its bytes."""

    kind: ReadFaultKind
    range: Range


class Refused(Exception):
    """A call was refused; the session is as it was."""

    def __init__(self, code: Code) -> None:
        super().__init__(code.name)
        self.code = code


class Unread(Exception):
    """The text cannot be read as trees."""

    def __init__(self, fault: ReadFault) -> None:
        super().__init__(f"{fault.kind.name} at {fault.range.start} to {fault.range.end}")
        self.fault = fault


def _range(numbers: array[int], at: int) -> Range:
    return Range(numbers[at], numbers[at + 1])


class Tokens(Sequence[Token]):
    """The printed tokens, in order. Each is made when it is asked for.

    `ranges` and `origins` are the same as numbers of 32 bits, for whoever reads many: those of the
    token `i` start at item `2 * i` and end at item `2 * i + 1`. `sources` has one number for each
    token.

    >>> with Session("a + b") as session:
    ...     tokens = session.expand().tokens
    >>> tokens[-1], tokens.ranges.tolist()
    (Token(range=Range(start=4, end=5), origin=Range(start=4, end=5)), [0, 1, 2, 3, 4, 5])
    """

    __slots__ = ("_count", "_ranges", "_origins", "_sources")

    def __init__(
        self, count: int, ranges: array[int], origins: array[int], sources: array[int]
    ) -> None:
        self._count, self._ranges = count, ranges
        self._origins, self._sources = origins, sources

    @property
    def ranges(self) -> memoryview:
        """Where the tokens are in the printed text."""
        return memoryview(self._ranges)[: 2 * self._count].toreadonly()

    @property
    def origins(self) -> memoryview:
        """Where the tokens come from in the text, or in the source that `sources` tells."""
        return memoryview(self._origins)[: 2 * self._count].toreadonly()

    @property
    def sources(self) -> memoryview:
        """Which text the tokens come from: 0 for the session's text, or the number of a source."""
        return memoryview(self._sources)[: self._count].toreadonly()

    def __len__(self) -> int:
        return self._count

    def _token(self, index: int) -> Token:
        return Token(_range(self._ranges, 2 * index), _range(self._origins, 2 * index))

    @overload
    def __getitem__(self, index: int) -> Token: ...
    @overload
    def __getitem__(self, index: slice) -> tuple[Token, ...]: ...
    def __getitem__(self, index: int | slice) -> Token | tuple[Token, ...]:
        at = range(self._count)[index]
        return tuple(map(self._token, at)) if isinstance(at, range) else self._token(at)

    def __iter__(self) -> Iterator[Token]:
        return map(self._token, range(self._count))

    def __repr__(self) -> str:
        return f"<{self._count} tokens>"

    def __eq__(self, other: object) -> bool:
        if not isinstance(other, Tokens):
            return NotImplemented
        return self._all() == other._all()

    def _all(self) -> tuple[array[int], array[int], array[int]]:
        return self._ranges, self._origins, self._sources


class Expansion:
    """What a text was expanded to.

    Its faults and tokens are taken over from the session when they are first asked for; those of
    an expansion that is still held, when its session is expanded again or closed. So an expansion
    stays as it is, and what nobody wants costs nothing. Until all is taken over, it keeps its
    session.
    """

    __slots__ = ("_printed", "_expanded", "_parts", "_session", "__weakref__")

    def __init__(self, printed: str, expanded: int, session: Session | None = None) -> None:
        self._printed, self._expanded = printed, expanded
        self._parts: dict[str, Any] = {}
        self._session = session

    def _take(self, *names: str) -> None:
        """Takes over parts that are not taken yet, in a turn of the session."""
        if self._session is not None:
            for name in names:
                if name not in self._parts:
                    try:
                        self._parts[name] = getattr(self._session, f"_{name}")()
                    except Refused as refused:
                        self._parts[name] = refused
            if len(self._parts) == len(_PARTS):
                self._session = None

    def _part(self, name: str) -> Any:
        session = self._session
        if session is not None and name not in self._parts:
            with session._turn():
                self._take(name)
        part = self._parts[name]
        if isinstance(part, Refused):
            raise part
        return part

    @property
    def printed(self) -> str:
        """The printed text."""
        return self._printed

    @property
    def expanded(self) -> int:
        """How many pieces were expanded anew."""
        return self._expanded

    @property
    def faults(self) -> tuple[Fault, ...]:
        """The faults, in order of start, end and kind."""
        return self._part("faults")

    @property
    def tokens(self) -> Tokens:
        """The printed tokens, in order. Refused as LENGTH if `printed` has 2**32 bytes or more."""
        return self._part("tokens")

    @property
    def sources(self) -> memoryview:
        """Which text each printed token comes from: 0 for the session's, or a source's number."""
        return self.tokens.sources

    def _all(self) -> tuple[str, int, tuple[Fault, ...], Tokens]:
        return self.printed, self.expanded, self.faults, self.tokens

    def __eq__(self, other: object) -> bool:
        return self._all() == other._all() if isinstance(other, Expansion) else NotImplemented

    def __hash__(self) -> int:
        return hash((self.printed, self.expanded))

    def __repr__(self) -> str:
        return f"Expansion(printed={self.printed!r}, expanded={self.expanded})"

    def __reduce__(self) -> tuple[object, ...]:
        return _expansion_of, self._all()


_PARTS = ("faults", "tokens")


def _expansion_of(
    printed: str, expanded: int, faults: tuple[Fault, ...], tokens: Tokens
) -> Expansion:
    expansion = Expansion(printed, expanded)
    expansion._parts = {"faults": faults, "tokens": tokens}
    return expansion


class _Session(ctypes.Structure):
    _fields_ = [("held", ctypes.c_void_p)]


class _Fault(ctypes.Structure):
    _fields_ = [(name, ctypes.c_uint32) for name in ("kind", "start", "end")]


class _SourceTold(ctypes.Structure):
    _fields_ = [("definitions", ctypes.c_size_t), ("fault", _Fault)]


class _Options(ctypes.Structure):
    _fields_ = [(name, ctypes.c_uint32) for name in ("edition", "grammar", "scope")]
    _fields_ += [("depth", ctypes.c_uint8)]
    _fields_ += [(name, ctypes.c_size_t) for name in ("calls", "tokens")]


class _Word(ctypes.Structure):
    _fields_ = [("bytes", ctypes.c_char_p), ("length", ctypes.c_size_t)]


class _Position(ctypes.Structure):
    _fields_ = [(name, ctypes.c_size_t) for name in ("line", "column")]


class _Counts(ctypes.Structure):
    _fields_ = [(name, ctypes.c_size_t) for name in ("printed", "tokens", "faults", "expanded")]


def _exported(library: ctypes.CDLL, name: str) -> Any:
    """A call of the library."""
    try:
        return getattr(library, f"filgordd_raw_{name}")
    except AttributeError:
        raise ImportError(f"the library is of another version than {__version__}") from None


def _load() -> ctypes.CDLL:
    beside = os.path.join(os.path.dirname(os.path.abspath(__file__)), "libfilgordd.so")
    library = ctypes.CDLL(os.environ.get("FILGORDD_LIBRARY", beside))
    session, size, u32 = ctypes.POINTER(_Session), ctypes.c_size_t, ctypes.c_uint32
    text, numbers = ctypes.c_char_p, ctypes.c_void_p
    for name, arguments in {
        "open_with": [text, size, ctypes.POINTER(_Options)],
        "open_cfg": [text, size, ctypes.POINTER(_Options), ctypes.POINTER(_Word), size],
        "close": [],
        "text": [text, size, ctypes.POINTER(size)],
        "is_boundary": [size],
        "fits": [size, size, size],
        "edit": [size, size, text, size],
        "expand": [],
        "counts": [ctypes.POINTER(_Counts)],
        "printed": [text, size],
        "json": [text, size, ctypes.POINTER(size)],
        "fault": [size, ctypes.POINTER(_Fault)],
        "reading_fault": [ctypes.POINTER(_Fault)],
        "origins": [numbers, size],
        "token_ranges": [numbers, size],
        "source": [u32, text, size, u32, text, size, ctypes.POINTER(_SourceTold)],
        "prelude": [numbers, size],
        "sources": [numbers, size],
        "position": [size, ctypes.POINTER(_Position)],
    }.items():
        call = _exported(library, name)
        call.argtypes = [session, *arguments]
        call.restype = None if name == "close" else u32
    for name in ("version", "code_words", "fault_words", "reading_fault_words"):
        call = _exported(library, name)
        number = [] if name == "version" else [u32]
        call.argtypes = [*number, text, size, ctypes.POINTER(size)]
        call.restype = u32
    return library


_library = _load()

if version() != __version__:
    raise ImportError(f"the library is of version {version()}, and this module of {__version__}")


# The rules of scopes, by their names.
_SCOPES = {"top": 0, "rust": 1}

# The index that stands for all definitions of a source.
_ALL = 2**32 - 1


def _read_fault(fault: _Fault) -> ReadFault:
    return ReadFault(ReadFaultKind(fault.kind), Range(fault.start, fault.end))


def _number(name: str, value: int, bits: int) -> int:
    """A number that the library can take: it reads only so many bits of one."""
    if isinstance(value, bool):
        raise TypeError(f"{name} is a bool, and not a number")
    value = operator.index(value)
    if not 0 <= value < 1 << bits:
        raise ValueError(f"{name} is not from 0 to 2**{bits} - 1")
    return value


def _size(name: str, value: int) -> int:
    return _number(name, value, 64)


def _scope(name: str) -> int:
    """The number of the rules of scopes that a name is of."""
    if not isinstance(name, str):
        raise TypeError("scope is no str")
    if name not in _SCOPES:
        raise ValueError(f"scope is none of {', '.join(_SCOPES)}")
    return _SCOPES[name]


def _words(name: str, words: Iterable[str]) -> tuple[ctypes.Array[_Word], int]:
    """Words as the library takes a list, and how many there are."""
    if isinstance(words, str):
        raise TypeError(f"{name} is one str, and not several")
    data = [str.encode(word) for word in words]
    # Never room for none, which may have no address.
    room = (_Word * max(len(data), 1))(*((word, len(word)) for word in data))
    return room, len(data)


class Session:
    """A text that may be edited and expanded.

    A name finds the definitions that are pieces of the text, and of the sources of its prelude:
    that is the scope "top". By "rust" it first finds those of the lists around the call, as of a
    block or a module, by Rust's textual scope, and the `;` behind an item's call goes with the call.

    >>> with Session("fn f() { macro_rules! m { () => { 1 } } m!() }", scope="rust") as session:
    ...     session.expand().printed
    'fn f ( ) { 1 }\\n'

    By `cfg`, words as after `--cfg` of rustc, options are set for conditional compilation: `NAME`, or
    `NAME="VALUE"` with a string of Rust. Definitions, and whole items in lists of items, whose `cfg` is
    then false are left out, those of sources too. By None nothing is left out. A word that names no
    option raises ValueError.

    >>> with Session("#[cfg(a)] mod m {} #[cfg(not(a))] mod n {}", cfg=["a"]) as session:
    ...     session.expand().printed
    '# [ cfg ( a ) ] mod m { }\\n'

    At most `most_calls` calls are expanded for one call of the text, itself among them, and rules
    put out at most `most_tokens` tokens for it; 0 is no limit. A call that makes more stays.

    >>> with Session("macro_rules! w { () => { w!{} w!{} } } w!{}", most_calls=1000) as session:
    ...     expansion = session.expand()
    ...     expansion.printed, expansion.faults[0].kind.name
    ('w ! { }\\n', 'TOO_LARGE')

    Threads may share a session. One call of it runs at a time, and that of another thread waits,
    `close` too. A call that begins within another of its own thread, as in a signal handler, raises
    RuntimeError. Calls on different sessions run side by side.

    A session is closed by `close`, at the end of a `with`, or when nothing refers to it any more.
    Then Python may run `__del__` on any thread. That is safe: a call that runs refers to its
    session, so none does, and the library keeps nothing by thread.

    A session is opened once, and can be neither copied nor pickled.
    """

    __slots__ = ("_held", "_lock", "_is_used", "_is_begun", "_last", "__weakref__")

    def __new__(cls, *arguments: object, **named: object) -> Session:
        self = super().__new__(cls)
        self._held, self._lock = _Session(None), threading.RLock()
        self._is_used = self._is_begun = False
        self._last: weakref.ref[Expansion] | None = None
        return self

    def __init__(
        self,
        text: str,
        edition: int = 2024,
        depth: int = 128,
        grammar: int = Grammar.RUST,
        scope: str = "top",
        cfg: Iterable[str] | None = None,
        most_calls: int = 0,
        most_tokens: int = 0,
    ) -> None:
        data = str.encode(text)
        edition, depth = _number("edition", edition, 32), _number("depth", depth, 8)
        most = _size("most_calls", most_calls), _size("most_tokens", most_tokens)
        options = _Options(edition, _number("grammar", grammar, 32), _scope(scope), depth, *most)
        given = (data, len(data), ctypes.byref(options))
        words = None if cfg is None else _words("cfg", cfg)
        with self._turn():
            if self._is_begun:
                raise RuntimeError("a session is opened once")
            self._is_begun = True
            if words is None:
                self._call("open_with", *given)
            else:
                self._open_cfg(*given, *words)

    def _open_cfg(self, *arguments: object) -> None:
        try:
            self._call("open_cfg", *arguments)
        except Refused as refused:
            if refused.code == Code.CFG:
                raise ValueError("a word of cfg names no option") from None
            raise

    def __reduce_ex__(self, protocol: object) -> NoReturn:
        raise TypeError("a session can be neither copied nor pickled: open one over its text")

    @contextmanager
    def _turn(self) -> Iterator[None]:
        """One thread's turn, in which no other call is made on this session."""
        with self._lock:
            if self._is_used:
                raise RuntimeError("this thread is in another call of the session")
            try:
                self._is_used = True
                yield
            finally:
                self._is_used = False

    def _call(self, name: str, *arguments: object) -> None:
        code = getattr(_library, f"filgordd_raw_{name}")(ctypes.byref(self._held), *arguments)
        if code:
            raise Refused(Code(code))

    def close(self) -> None:
        """Closes the session. What it is asked afterwards is refused as CLOSED."""
        with self._turn():
            try:
                self._leave()
            finally:
                _library.filgordd_raw_close(ctypes.byref(self._held))

    def __enter__(self) -> Session:
        return self

    def __exit__(
        self,
        kind: type[BaseException] | None,
        error: BaseException | None,
        trace: TracebackType | None,
    ) -> None:
        self.close()

    def __del__(self) -> None:
        if _library is not None and hasattr(self, "_is_begun"):
            self.close()

    @property
    def text(self) -> str:
        """The text."""
        with self._turn():
            return self._line("text")

    def json(self) -> str:
        """The last answer as a line of JSON. Refused as NOTHING if the text was edited since."""
        with self._turn():
            return self._line("json")

    def _line(self, name: str) -> str:
        """What a call tells whose length it tells too."""
        wanted = ctypes.c_size_t()
        try:
            self._call(name, b"", 0, ctypes.byref(wanted))
        except Refused as refused:
            if refused.code != Code.ROOM:
                raise
        return self._copied(name, wanted.value, ctypes.byref(wanted))

    def _copied(self, name: str, length: int, *more: object) -> str:
        room = ctypes.create_string_buffer(length + 1)
        self._call(name, room, length, *more)
        return str(memoryview(room)[:length], "utf-8")

    def _tells(self, name: str, *arguments: int) -> bool:
        try:
            with self._turn():
                self._call(name, *arguments)
        except Refused as refused:
            if refused.code == Code.CLOSED:
                raise
            return False
        return True

    def is_boundary(self, at: int) -> bool:
        """Whether the offset is a character boundary of the text, its end included."""
        return self._tells("is_boundary", _size("at", at))

    def fits(self, start: int, end: int, length: int) -> bool:
        """Whether so many bytes can replace those from `start` to `end`, as far as lengths go."""
        start, end = _size("start", start), _size("end", end)
        return self._tells("fits", start, end, _size("length", length))

    def position(self, at: int) -> Position:
        """Where the offset of the text is, that of its end included.

        It is counted from the beginning of the text. A fault and an origin are of the text that was
        expanded. Refused as RANGE behind the text.

        >>> with Session("a;\\né b") as session:
        ...     session.position(6)
        Position(line=2, column=4)
        """
        into = _Position()
        at = _size("at", at)
        with self._turn():
            self._call("position", at, ctypes.byref(into))
        return Position(into.line, into.column)

    def edit(self, start: int, end: int, replacement: str) -> None:
        """Replaces the bytes from `start` to `end`."""
        data = str.encode(replacement)
        start, end = _size("start", start), _size("end", end)
        with self._turn():
            self._call("edit", start, end, data, len(data))

    def source(
        self, number: int, text: str, root: str | None = None, edition: int = 2024
    ) -> int:
        """Reads a text for its definitions, and tells how many it has.

        It is the source of this number, from 1 on, of this session, in place of the one that has
        it. Without a root its definitions are of the crate of the session's text. Else they are of
        another crate, in that edition, and their `$crate` is printed as the root, such as `std`.
        The prelude stays as it is. Raises Unread if the text cannot be read.

        >>> with Session("f(two!())") as session:
        ...     _ = session.source(1, "macro_rules! two { () => { $crate::TWO } }", root="std")
        ...     session.prelude([1])
        ...     expansion = session.expand()
        >>> expansion.printed, expansion.sources.tolist()
        ('f ( std :: TWO )\\n', [0, 0, 1, 1, 1, 1, 0])
        """
        data, told = str.encode(text), _SourceTold()
        home = str.encode("" if root is None else root)
        number, edition = _number("number", number, 32), _number("edition", edition, 32)
        if root is not None and not home:
            raise Refused(Code.ROOT)
        with self._turn():
            place = number, home, len(home), edition, data, len(data)
            try:
                self._call("source", *place, ctypes.byref(told))
            except Refused as refused:
                if refused.code == Code.UNREAD:
                    raise Unread(_read_fault(told.fault)) from None
                raise
        return told.definitions

    def prelude(self, picks: Iterable[int | tuple[int, int]]) -> None:
        """Has the text expanded after these definitions, from the next `expand` on.

        A pick is the number of a source and the index of a definition there, or the number alone:
        then it is all definitions of the source that are in no inline module and have no attribute
        `rustc_builtin_macro`. The nearest is the last, and those of the text are nearer. Besides,
        those of each source of another crate are seen behind its root, as by `$crate::name` in
        another of them.
        """
        pairs = [pick if isinstance(pick, tuple) else (pick, _ALL) for pick in picks]
        room = array("I")
        for source, index in pairs:
            room.extend((_number("source", source, 32), _number("index", index, 32)))
        # Never room for none, which may have no address.
        room.extend((0, 0))
        address, _ = room.buffer_info()
        with self._turn():
            self._call("prelude", address, len(pairs))

    def expand(self) -> Expansion:
        """Expands the text. Raises Unread if it cannot be read, Refused if there is no answer."""
        with self._turn():
            self._leave()
            try:
                self._call("expand")
            except Refused as refused:
                if refused.code == Code.UNREAD:
                    raise Unread(self._reading_fault()) from None
                raise
            counts = self._counts()
            printed = self._copied("printed", counts.printed)
            expansion = Expansion(printed, counts.expanded, self)
            self._last = weakref.ref(expansion)
            return expansion

    def _leave(self) -> None:
        """Before the last answer goes: whoever holds it takes over what it has."""
        last = self._last and self._last()
        if last is not None:
            last._take(*_PARTS)
        self._last = None

    def _counts(self) -> _Counts:
        counts = _Counts()
        self._call("counts", ctypes.byref(counts))
        return counts

    def _reading_fault(self) -> ReadFault:
        fault = _Fault()
        self._call("reading_fault", ctypes.byref(fault))
        return _read_fault(fault)

    def _faults(self) -> tuple[Fault, ...]:
        return tuple(map(self._fault, range(self._counts().faults)))

    def _fault(self, index: int) -> Fault:
        fault = _Fault()
        self._call("fault", index, ctypes.byref(fault))
        return Fault(FaultKind(fault.kind), Range(fault.start, fault.end))

    def _tokens(self) -> Tokens:
        count = self._counts().tokens
        ranges, origins = (self._filled(name, count, 2) for name in ("token_ranges", "origins"))
        return Tokens(count, ranges, origins, self._filled("sources", count, 1))

    def _filled(self, name: str, count: int, width: int) -> array[int]:
        """What the library writes of so many tokens, of each so many numbers."""
        # Never room for none, which may have no address.
        room = array("I", [0]) * (width * max(count, 1))
        address, _ = room.buffer_info()
        self._call(name, address, count)
        return room
