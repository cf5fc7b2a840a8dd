"""Checks of the module: the row of the README, every code that a text of this size can bring about
from here, numbers and texts that no library can take, sessions that are shared, copied and left, and
random edits of one session against fresh sessions: check.py [COUNT]"""

import copy
import ctypes
import doctest
import functools
import gc
import json
import pickle
import random
import signal
import sys
import threading
import warnings
import weakref

import filgordd
from filgordd import Code, Fault, FaultKind, Grammar, Range, ReadFault, ReadFaultKind
from filgordd import Refused, Session, Token, Unread

TEXT = "macro_rules! p { ($a:ident $b:tt) => { $b $a } } p!{ x y }"


def raises(error, call, *arguments, **named):
    try:
        call(*arguments, **named)
    except error:
        return True
    return False


def refusal(call, *arguments):
    try:
        call(*arguments)
    except Refused as refused:
        return refused.code
    return None


def the_row():
    with Session(TEXT) as session:
        expansion = session.expand()
        assert expansion.printed == "y x\n" and expansion.expanded == 1 and not expansion.faults
        y, x = Token(Range(0, 1), Range(55, 56)), Token(Range(2, 3), Range(53, 54))
        assert tuple(expansion.tokens) == (y, x)
        session.edit(0, 0, "// a\n")
        expansion = session.expand()
        assert expansion.expanded == 0 and expansion.tokens[1].origin == Range(58, 59)
        session.edit(58, 59, "1")
        fault = Fault(FaultKind.CANNOT_EXPAND, Range(54, 55))
        faults = session.expand().faults
        assert list(faults) == [fault] and faults[-1] == fault and len(faults) == 1


def json_lines():
    with Session("a;") as session:
        assert refusal(session.json) == Code.NOTHING
        expansion = session.expand()
        line = json.loads(session.json())
        assert line["answer"] == "expansion" and line["text"] == expansion.printed == "a ;\n"
        assert line["origins"] == [0, 0, 1, 0, 1, 2] and line["ranges"] == [0, 1, 2, 3]
        session.edit(2, 2, "(")
        assert refusal(session.json) == Code.NOTHING
        assert raises(Unread, session.expand)
        assert json.loads(session.json())["kind"] == "GroupLeftOpen"
    assert refusal(session.json) == Code.CLOSED


def grammars():
    text = "macro_rules! e { ($a:expr) => { $a } } e!{ |x| x + 1 }"
    assert not Session(text).expand().faults and not Session(text, grammar=Grammar.RUST).expand().faults
    assert [fault.kind for fault in Session(text, grammar=Grammar.SMALL).expand().faults] == [FaultKind.CANNOT_EXPAND]


def scopes():
    text = "fn f() { macro_rules! m { () => { 1 } } m!{} }"
    kinds = [fault.kind for fault in Session(text).expand().faults]
    assert kinds == [fault.kind for fault in Session(text, scope="top").expand().faults] == [FaultKind.NESTED_DEFINITION]
    expansion = Session(text, scope="rust").expand()
    assert expansion.printed == "fn f ( ) { 1 }\n" and not expansion.faults
    assert all(raises(ValueError, Session, text, scope=bad) for bad in ("", "Rust", "list"))
    assert all(raises(TypeError, Session, text, scope=bad) for bad in (0, None, b"rust", True))
    never, options = Session.__new__(Session), filgordd._Options(2024, Grammar.RUST, 2, 128, 0, 0)
    assert refusal(never._call, "open_with", b"", 0, ctypes.byref(options)) == Code.SCOPE


LIMITS = "macro_rules! w { () => { w!{} w!{} } } macro_rules! b { () => { c!{} } } macro_rules! c { () => { 1 2 } } b!{} w!{}"


def limits():
    for calls, tokens, faults in ((2, 5, 1), (1, 5, 2), (2, 4, 2), (9, 0, 1)):
        expansion = Session(LIMITS, most_calls=calls, most_tokens=tokens).expand()
        assert [it.kind for it in expansion.faults] == [FaultKind.TOO_LARGE] * faults
    for bad in (-1, 1 << 64):
        assert raises(ValueError, Session, "a", most_calls=bad) and raises(ValueError, Session, "a", most_tokens=bad)
    assert raises(TypeError, Session, "a", most_calls=None) and raises(TypeError, Session, "a", most_tokens=True)


CONDITIONS = "#[cfg(unix)] macro_rules! m { () => { 1 } } #[cfg(not(unix))] macro_rules! m { () => { 2 } } "
CONDITIONS += '#[cfg(a = "b")] fn f() {} m!{}'


def conditions():
    item = '# [ cfg ( a = "b" ) ] fn f ( ) { }\n'
    rows = [(None, item + "2\n"), ((), "2\n"), (["unix"], "1\n"), (iter(["unix", ' a = r"b" ', "unix"]), item + "1\n")]
    for cfg, printed in rows:
        assert Session(CONDITIONS, scope="rust", cfg=cfg).expand().printed == printed
    for bad in ("", "a b", "a=b", "a=1", "_", "fn", "a(", "--cfg", "a\0"):
        assert raises(ValueError, Session, CONDITIONS, cfg=["unix", bad])
    assert all(raises(TypeError, Session, "a", cfg=bad) for bad in ("unix", b"unix", [b"unix"], 1, True, [None]))
    assert raises(UnicodeEncodeError, Session, "a", cfg=["\ud800"])
    session = Session("p!{}", cfg=["test"])
    session.source(1, "macro_rules! p { () => { 3 } } #[cfg(not(test))] macro_rules! p { () => { 4 } }")
    session.prelude([1])
    assert session.expand().printed == "3\n"
    never, options = Session.__new__(Session), filgordd._Options(2024, Grammar.RUST, 1, 128)
    arguments = b"", 0, ctypes.byref(options)
    assert refusal(never._call, "open_cfg", *arguments, *filgordd._words("cfg", ["a="])) == Code.CFG
    word = (filgordd._Word * 1)((b"\xff", 1))
    assert refusal(never._call, "open_cfg", *arguments, word, 1) == Code.UTF8


def codes():
    assert refusal(Session, "a", 2020) == Code.EDITION
    assert refusal(Session, "a", 2024, 128, 2) == Code.GRAMMAR
    session = Session("é;")
    assert refusal(session._call, "counts", ctypes.byref(filgordd._Counts())) == Code.NOTHING
    assert [session.is_boundary(at) for at in range(5)] == [True, False, True, True, False]
    assert session.fits(0, 3, 2**32 - 1) and not session.fits(0, 2, 2**32 - 1) and not session.fits(2, 1, 0)
    assert refusal(session._call, "fits", 0, 2, 2**32 - 1) == Code.LENGTH
    assert refusal(session.edit, 1, 2, "a") == Code.BOUNDARY
    assert refusal(session.edit, 0, 4, "a") == Code.RANGE
    assert refusal(session._call, "edit", 0, 0, b"\xff", 1) == Code.UTF8
    assert session.text == "é;"
    session.expand()
    assert refusal(session._call, "printed", b"", 0) == Code.ROOM
    assert refusal(session._call, "reading_fault", ctypes.byref(filgordd._Fault())) == Code.NOTHING
    session.edit(3, 3, "(")
    try:
        session.expand()
        raise AssertionError("it is read")
    except Unread as unread:
        assert unread.fault == ReadFault(ReadFaultKind.GROUP_LEFT_OPEN, Range(3, 4))
    session.close()
    session.close()
    assert refusal(session.expand) == Code.CLOSED and refusal(session.edit, 0, 0, "") == Code.CLOSED


SOURCE = "macro_rules! a { ($x:tt) => { $crate::b!($x) } } mod m { macro_rules! c { () => {} } } "
SOURCE += "#[rustc_builtin_macro] macro_rules! e { () => {} } macro_rules! b { ($x:tt) => { $crate::f $x } }"


def sources():
    """Definitions of two sources, of which one is of another crate."""
    session = Session("a!(1); d!(2); e!();")
    assert refusal(session.source, 0, SOURCE, "std") == Code.SOURCE
    assert [refusal(session.source, 1, SOURCE, root) for root in ("crate", "")] == [Code.ROOT] * 2
    assert refusal(session.source, 1, SOURCE, "std", 2020) == Code.EDITION
    assert session.source(1, SOURCE, root="std", edition=2021) == 4
    try:
        session.source(1, "a (", "std")
        raise AssertionError("it is read")
    except Unread as unread:
        assert unread.fault == ReadFault(ReadFaultKind.GROUP_LEFT_OPEN, Range(2, 3))
    assert session.source(2, "macro_rules! d { ($x:tt) => { $x + } }") == 1
    assert refusal(session.prelude, [3]) == Code.SOURCE
    assert refusal(session.prelude, [1, (2, 1)]) == Code.INDEX
    assert raises(ValueError, session.prelude, [2**32]) and raises(TypeError, session.prelude, [True])
    assert raises(ValueError, session.source, -1, "") and raises(TypeError, session.source, 1, b"")
    session.prelude([1, (2, 0)])
    expansion = session.expand()
    assert expansion.printed == "std :: f 1 ;\n2 + ;\ne ! ( ) ;\n"
    assert expansion.sources.tolist() == [1, 1, 1, 1, 0, 0, 0, 2, 0, 0, 0, 0, 0, 0]
    origins = [token.origin for token, source in zip(expansion.tokens, expansion.sources) if source == 1]
    assert [SOURCE[origin.start : origin.end] for origin in origins] == ["$", ":", ":", "f"]
    assert pickle.loads(pickle.dumps(expansion)) == expansion
    session.prelude([])
    later = session.expand()
    assert later.expanded == 2 and set(later.sources) == {0} and later != expansion
    session.close()
    assert refusal(session.source, 1, "") == refusal(session.prelude, []) == Code.CLOSED


def words_and_positions():
    assert filgordd.version() == filgordd.__version__
    told = [it.words for kinds in (Code, FaultKind, ReadFaultKind) for it in kinds]
    assert all(told) and len(set(told)) == len(told)
    assert FaultKind.TOO_LARGE.words == "the expansion of this call is too large"
    assert refusal(filgordd._told_words, "code_words", 20) == Code.INDEX
    with Session("a;\né b\n") as session:
        # From the first byte to the end, a line feed being the last of its line.
        rows = (1, 1), (1, 2), (1, 3), (2, 1), (2, 2), (2, 3), (2, 4), (2, 5), (3, 1)
        assert tuple(session.position(at) for at in range(9)) == rows
        assert refusal(session.position, 9) == Code.RANGE
        assert raises(ValueError, session.position, -1)
    assert refusal(session.position, 0) == Code.CLOSED


def first_name():
    with warnings.catch_warnings(record=True) as told:
        warnings.simplefilter("always")
        import expander
    assert [it.category for it in told] == [DeprecationWarning]
    assert all(getattr(expander, name) is getattr(filgordd, name) for name in filgordd.__all__)


def items():
    """Tokens are made when they are asked for, and outlive their session."""
    with Session(TEXT + " é 'a") as session:
        expansion = session.expand()
        session.edit(0, 0, "z;")
        later = session.expand()
        assert later != expansion and len(later.tokens) == len(expansion.tokens) + 2
        session.edit(0, 0, "(")
        assert raises(Unread, session.expand)
        assert later.tokens is later.tokens and later.printed.startswith("z ;")
    tokens, printed = expansion.tokens, expansion.printed.encode()
    words = [printed[token.range.start : token.range.end].decode() for token in tokens]
    assert words == ["y", "x", "é", "'", "a"] and len(tokens) == 5
    assert tokens[-1] == tokens[4] == list(tokens)[4] and tokens[1:3] == (tokens[1], tokens[2])
    assert raises(IndexError, lambda: tokens[5]) and raises(TypeError, lambda: tokens["0"])
    assert tokens.origins.tolist() == [number for token in tokens for number in token.origin]
    assert tokens.ranges.tolist() == [number for token in tokens for number in token.range]
    assert raises(TypeError, lambda: tokens.ranges.__setitem__(0, 1))
    pickled = pickle.loads(pickle.dumps(expansion))
    for other in (copy.copy(expansion), copy.deepcopy(expansion), pickled):
        assert other == expansion and hash(other) == hash(expansion)
    alone = Session("a 1u8").expand()
    assert [token.origin for token in alone.tokens] == [(0, 1), (2, 5)] and alone.faults == ()
    assert alone._session is None
    nothing = Session("").expand()
    assert list(nothing.tokens) == nothing.tokens.ranges.tolist() == [] and not nothing.faults


def numbers():
    """No number is cut to what the library takes, and no text is taken for another."""
    session = Session("abc")
    for bad in (2**64, 2**64 + 1, 2**1000, -1, -(2**64)):
        for arguments in ((bad, 0, "x"), (0, bad, "x"), (bad, bad, "x")):
            assert raises(ValueError, session.edit, *arguments)
        assert raises(ValueError, session.is_boundary, bad)
        assert raises(ValueError, session.fits, 0, 0, bad)
        assert raises(ValueError, session.fits, bad, bad, 0)
        for name in ("edition", "depth", "grammar"):
            assert raises(ValueError, Session, "a", **{name: bad})
    for bad in (True, False, 1.0, "1", None, b"1", [1]):
        assert raises(TypeError, session.edit, bad, 1, "x")
        assert raises(TypeError, session.edit, 0, bad, "x")
        assert raises(TypeError, session.is_boundary, bad)
        assert raises(TypeError, session.fits, 0, 0, bad)
        for name in ("edition", "depth", "grammar"):
            assert raises(TypeError, Session, "a", **{name: bad})
    for bad in (None, b"x", 1, ["x"]):
        assert raises(TypeError, Session, bad) and raises(TypeError, session.edit, 0, 0, bad)
    assert raises(UnicodeEncodeError, Session, "\ud800")
    assert raises(UnicodeEncodeError, session.edit, 0, 0, "\udfff")
    assert raises(ValueError, Session, "a", depth=256)
    assert raises(ValueError, Session, "a", grammar=2**32)
    assert raises(ValueError, Session, "a", edition=2**32 + 2024)
    assert refusal(session.edit, 2**64 - 1, 2**64 - 1, "x") == Code.RANGE
    assert not session.is_boundary(2**64 - 1) and not session.fits(0, 0, 2**64 - 1)
    assert session.text == "abc"


def once():
    """A session is opened once, is not copied, and is nothing before it is opened."""
    session = Session("abc")
    assert raises(RuntimeError, session.__init__, "other") and session.text == "abc"
    for call in (copy.copy, copy.deepcopy, pickle.dumps, Session.__reduce__):
        assert raises(TypeError, call, session)
    assert not hasattr(session, "__dict__") and session.text == "abc"
    session.close()
    assert raises(RuntimeError, session.__init__, "other")
    never = Session.__new__(Session)
    assert refusal(never.expand) == Code.CLOSED
    never.__init__("later")
    assert never.text == "later"


def in_threads(*calls):
    """What these calls raised, each on a thread of its own, all at once."""
    raised = []

    def run(call):
        gate.wait()
        try:
            call()
        except BaseException as error:
            raised.append(error)

    gate = threading.Barrier(len(calls))
    threads = [threading.Thread(target=run, args=(call,)) for call in calls]
    for thread in threads:
        thread.start()
    for thread in threads:
        thread.join()
    return raised


def shared():
    """Threads take turns in one session, and no answer mixes two texts."""
    session = Session("a ")

    def edits():
        for _ in range(100):
            session.edit(0, 0, "a ")
            expansion = session.expand()
            count = len(expansion.tokens)
            assert expansion.printed == "a " * (count - 1) + "a\n"
            assert expansion.tokens.ranges.tolist()[::2] == list(range(0, 2 * count, 2))

    assert in_threads(*[edits] * 8) == [] and session.text == "a " * 801


LONG = TEXT + "\n" + "p!{ x y }\n" * 50_000


def meanwhile():
    """`close` waits for the call of another thread, and is not lost; nor is it by a second `close`."""
    session = Session(LONG)
    answers = []

    def expand():
        begun.set()
        answers.append(session.expand())

    begun = threading.Event()
    other = threading.Thread(target=expand)
    other.start()
    begun.wait()
    while other.is_alive() and not session._is_used:
        pass
    session.close()
    assert session._held.held is None
    other.join()
    assert [len(expansion.tokens) for expansion in answers] == [100_002]
    assert refusal(session.expand) == Code.CLOSED
    session = Session(LONG)
    edit = functools.partial(session.edit, 0, 0, "a")
    raised = in_threads(session.expand, session.close, edit, session.close)
    assert all(isinstance(error, Refused) and error.code == Code.CLOSED for error in raised)
    assert session._held.held is None


def within():
    """A call within a call of the same thread, as in a signal handler, raises and does not wait."""
    session, raised = Session(LONG), []

    def handler(*_):
        raised.append(raises(RuntimeError, session.is_boundary, 0))

    before = signal.signal(signal.SIGALRM, handler)
    signal.setitimer(signal.ITIMER_REAL, 0.001, 0.001)
    try:
        while not any(raised):
            session.edit(0, 0, "z ")
            session.expand()
    finally:
        signal.setitimer(signal.ITIMER_REAL, 0)
        signal.signal(signal.SIGALRM, before)


def left():
    """A session that is left is closed on the thread that finds it, one in a cycle by the collector."""
    gc.collect()
    closed, close = [], filgordd._library.filgordd_raw_close

    def count(held):
        closed.append(threading.get_ident())
        close(held)

    class Node:
        pass

    filgordd._library.filgordd_raw_close = count
    try:
        for is_cycle in (False, True):
            node = Node()
            node.session, node.itself = Session("abc"), node if is_cycle else None
            gone = weakref.ref(node.session)
            room = [node]
            del node
            assert in_threads(lambda: (room.clear(), gc.collect())) == []
            assert gone() is None and len(closed) == 1
            assert closed.pop() != threading.get_ident()
    finally:
        filgordd._library.filgordd_raw_close = close


def answer(session):
    try:
        expansion = session.expand()
    except Unread as unread:
        return unread.fault
    return expansion.printed, tuple(expansion.faults), expansion.tokens


def random_edits(count):
    parts = ["x", " y", "(", ")", "{", "}", "p!{ x y }", "'a", '"s"', "1.0", ";", "é", "//c\n", "/// d\n", "$", "#"]
    parts += ["macro_rules! q { ($($t:tt)*) => { $($t)* } }\n", "q!{ p!{ a b } }\n", "::", " "]
    chosen = random.Random(41)
    text = good = (TEXT + "\n").encode()
    session, read = Session(text.decode()), 0
    for _ in range(count):
        start = chosen.randint(0, len(text))
        end, part = start + chosen.randint(0, 3), chosen.choice(parts)
        if text != good and chosen.randrange(4):
            # most often, back to a text that is read
            start, end, part = 0, len(text), good.decode()
        if len(text) > 400:
            start, end, part = 0, len(text), TEXT + "\n"
        code = refusal(session.edit, start, end, part)
        if end > len(text):
            assert code == Code.RANGE
        elif not (session.is_boundary(start) and session.is_boundary(end)) and code:
            assert code == Code.BOUNDARY
        else:
            assert code is None
            text = text[:start] + part.encode() + text[end:]
        assert session.text.encode() == text
        with Session(text.decode()) as fresh:
            told = answer(session)
            assert told == answer(fresh)
        if not isinstance(told, ReadFault):
            good, read = text, read + 1
    session.close()
    assert read >= count // 3


for check in (the_row, json_lines, grammars, scopes, limits, conditions, codes, sources, words_and_positions, first_name, items, numbers, once, shared, meanwhile, within, left):
    check()
random_edits(int(sys.argv[1]) if len(sys.argv) > 1 else 1000)
sys.exit(doctest.testmod(filgordd).failed)
