"""Ulzhartep, the procedure box, for Python: the calls of its shared library, on x86-64 Linux with glibc.

A job is a Graph of steps. People take steps in roles; some steps wait for others, and taking one makes others due, includes them
or excludes them. A set is a number: step s is in it where bit s is 1, 1 << s. Journals, records and sheets are bytes.

    graph, marking = Graph.read(open("job.sheet", "rb").read())
    reboot = Entry(person=0, step=0, role=0)
    try:
        graph.ask(marking, reboot)
    except Refused as refused:
        print(refused.number, refused.text)
    else:
        marking = graph.take(marking, reboot)

A call answers with what the rules say or raises Refused. A number that does not fit its field is an OverflowError.

The library is the file or the folder that ULZHARTEP_LIB names, or else what the system's loader finds, or else target/lib of the
repository. The calls hold Python's lock, so that nothing changes that is lent to them.
"""

import collections
import ctypes
import enum
import os
import pathlib

JOURNAL_BYTES = 65535  # the longest journal: 21,845 entries
RECORD_BYTES = 65  # every record
SHEET_BYTES = 37147  # the longest sheet, of six bodies
SHEET_LEAST = 57  # the shortest sheet that is read, of five bodies
SHEET_WRITTEN_LEAST = 64  # the shortest sheet that is written, of six bodies
MARKING_BYTES = 24  # every marking in a store
STORE_MOST = 2048  # the most markings that a store has place for

_SONAME = "libulzhartep.so.0.5"  # a library whose blocks lie otherwise in memory has another


class Refusal(enum.IntEnum):
    """Why a call is not answered; ulzhartep.h says more of each."""

    LAYOUT = 1
    COUNTS = 2
    BODIES = 3
    BEYOND = 4
    ARROWS = 5
    BOTH = 6
    LENGTH = 7
    OUTSIDE = 8
    NO_RANK = 9
    ILL_FORMED = 10
    UNKNOWN = 11
    NOT_HELD = 12
    NOT_ON_STEP = 13
    EXCLUDED = 14
    WAITS = 15
    NOT_APPLIED = 16
    EMPTY_LAP = 17
    ROOM = 18
    STORE = 22
    ARMS = 30


TEXTS = (
    "answered",
    "not laid out as a sheet",
    "a count is out of range",
    "the bodies of the sheet do not fit its counts",
    "something is named that the counts do not have",
    "an arrow of the sheet is wrong or out of order",
    "a step includes and excludes the same step",
    "the bytes of the journal are no multiple of 3, or too many",
    "the marking has a step that the graph does not have",
    "no step has this rank",
    "the record is not well-formed",
    "no such person, step or role",
    "the person does not hold this role",
    "the step's action does not have this role",
    "the step is not included",
    "the step waits for steps that are not done",
    "the record does not apply to the marking",
    "the lap is empty",
    "there is too little room",
    *3 * [None],  # no call gives 19 to 21
    "the store is no whole number of markings from 1 to 2,048",
    *7 * [None],  # nor 23 to 29
    "the number of arms is not from 2 to 16",
)


class CanEnd(enum.IntEnum):
    """Can a job still end?"""

    UNDECIDED = 1  # the store was too small to tell, and a larger one may tell
    NONE = 2  # whatever is done from here on, the job is never finished
    REACHABLE = 3  # it can


Ends = collections.namedtuple("Ends", "verdict fewest looked")  # of Graph.can_end


class Refused(Exception):
    """A call was refused: refusal, number and text say why. With 15 waiting is the set of all steps that are waited for, which
    steps(waiting) lists; with every other number it is None.

    Of a run or restore, with 11 to 15, entries is the index of the refused entry and marking the one before it. Of a lap, with 11
    to 15, index and lap_pass say where it was: 0 stem, 1 first time round the lap, 2 second, 3 later.
    """

    def __init__(self, answer):
        self.refusal = Refusal(answer.number)
        self.number = int(answer.number)
        self.text = TEXTS[self.number]
        self.waiting = answer.waiting if self.number == Refusal.WAITS else None
        at_entry = Refusal.UNKNOWN <= self.number <= Refusal.WAITS
        self.entries = getattr(answer, "entries", None) if at_entry else None
        self.marking = getattr(answer, "marking", None) if at_entry else None
        self.index = getattr(answer, "index", None) if at_entry else None
        self.lap_pass = getattr(answer, "lap_pass", None) if at_entry else None
        waits_for = "" if self.waiting is None else ": " + " ".join(map(str, steps(self.waiting)))
        super().__init__(f"{self.number} {self.text}{waits_for}")


def steps(members):
    """The steps of a set, in ascending order."""
    return [step for step in range(64) if members >> step & 1]


def _fits(value, ceiling):
    """ctypes would cut a number that is too large: person 256 would be person 0."""
    if not 0 <= value < ceiling:
        raise OverflowError(f"{value} is not from 0 to {ceiling - 1}")
    return value


class _Block(ctypes.Structure):
    """Fields in the order of ulzhartep.h; equal where all of them are."""

    def __setattr__(self, name, value):
        if isinstance(value, int):
            value = _fits(value, 1 << 8 * getattr(type(self), name).size)
        super().__setattr__(name, value)

    def __eq__(self, other):
        return type(self) is type(other) and bytes(self) == bytes(other)

    def __repr__(self):
        return f"{type(self).__name__}({', '.join(f'{name}={getattr(self, name)!r}' for name, _ in self._fields_)})"


def _words(count):
    """Rows of a graph."""

    class Rows(ctypes.c_uint64 * count):
        def __setitem__(self, place, value):
            for each in value if isinstance(place, slice) else [value]:
                _fits(each, 1 << 64)
            super().__setitem__(place, value)

        def __repr__(self):
            return repr(list(self))

    return Rows


def _fields(names, kind=ctypes.c_uint64):
    return [(name, kind) for name in names.split()]


class Marking(_Block):
    """The state of a job: three sets of steps."""

    _fields_ = _fields("done due included")

    @classmethod
    def read(cls, data):
        """Of the 24 bytes that the program writes."""
        if len(data) != MARKING_BYTES:
            raise ValueError("a marking has 24 bytes")
        return cls.from_buffer_copy(data)


class Entry(_Block):
    """A person takes a step in a role. In a journal an entry is the same three bytes: bytes(entry)."""

    _fields_ = _fields("person step role", ctypes.c_uint8)


class Track(_Block):
    """Where a tracker is."""

    _fields_ = [("marking", Marking), *_fields("rank flag")]


class Record(_Block):
    """What a journal does, whatever the marking is."""

    _fields_ = _fields("never need_in need_ex need_out_or_ex done due_set due_clear in_set in_clear")

    @classmethod
    def read(cls, n, data):
        """The record in these bytes, for n steps."""
        record = cls()
        _number(_library.ulz_record_read(_word(n), *_lent(data), ctypes.byref(record)))
        return record

    def write(self, n):
        """The 65 bytes of the record, for n steps."""
        room = (ctypes.c_uint8 * RECORD_BYTES)()
        _answered(_library.ulz_record_write(_word(n), ctypes.byref(self), room, RECORD_BYTES))
        return bytes(room)


class Graph(_Block):
    """A graph. Rows at or beyond the counts have to be 0.

    Roles belong to actions, and every step has one action, so that steps with the same action cannot differ in their roles: those
    of step s are allows[labels[s]].
    """

    _fields_ = [
        *_fields("steps people roles actions"),
        ("conditions", _words(64)),  # row b: the steps that b waits for
        ("responses", _words(64)),  # row a of this and the next two: the steps that become due, included, excluded
        ("includes", _words(64)),
        ("excludes", _words(64)),
        ("allows", _words(64)),  # row a: the roles in which action a can be taken
        ("holds", _words(16)),  # row p: the roles of person p
        ("labels", _words(64)),  # row s: the action of step s, a number and no set
    ]

    @classmethod
    def bare(cls, steps, people, roles):
        """A graph of these counts without arrows and roles, in which every step is an action of its own. Steps that are to share
        an action get the same number in labels, and actions becomes how many there are."""
        graph = cls(steps=steps, people=people, roles=roles, actions=steps)
        own = range(min(steps, len(graph.labels)))
        graph.labels[: len(own)] = own
        return graph

    @classmethod
    def read(cls, sheet):
        """The graph of a sheet, and the marking that the job begins with. A sheet of five bodies has a role set for each step; it
        is read as a graph in which every step is an action of its own."""
        graph, marking = cls(), Marking()
        _number(_library.ulz_read(*_lent(sheet), ctypes.byref(graph), ctypes.byref(marking)))
        return graph, marking

    def write(self, marking, length=SHEET_BYTES):
        """The sheet, of six bodies; refused with 18 where it is longer than this."""
        room = (ctypes.c_uint8 * length)()
        return bytes(room[: _answered(_library.ulz_write(ctypes.byref(self), marking, room, length)).length])

    def check(self):
        """Is this a graph?"""
        _number(_library.ulz_check(ctypes.byref(self)))

    def ask(self, marking, entry):
        """Is the entry allowed? Nothing is taken; refused where it is not."""
        _answered(_library.ulz_ask(ctypes.byref(self), marking, entry))

    def allowed_to(self, marking, person):
        """The set of the steps that the person may take in some role: those that ask allows in one."""
        return _answered(_library.ulz_allowed_to(ctypes.byref(self), marking, _word(person))).steps

    def allowed_to_someone(self, marking):
        """The set of the steps that someone may take: those of all people together."""
        return _answered(_library.ulz_allowed_to_someone(ctypes.byref(self), marking)).steps

    def take(self, marking, entry):
        """Takes a step: asks, and if the entry is allowed gives the marking after. What ask refuses is refused here alike."""
        return _answered(_library.ulz_take(ctypes.byref(self), marking, entry)).marking

    def keep(self, marking, entry):
        """As take, but an allowed entry changes the marking itself; a refused one leaves it."""
        _answered(_library.ulz_keep(ctypes.byref(self), ctypes.byref(marking), entry))

    def finished(self, marking):
        """Is no step at once due and included?"""
        return _answered(_library.ulz_finished(ctypes.byref(self), marking)).finished == 1

    def run(self, marking, journal):
        """Takes the entries one after the other. Answers how many there are and the marking after them."""
        ran = _answered(_library.ulz_run(ctypes.byref(self), marking, *_lent(journal)))
        return ran.entries, ran.marking

    def fold(self, journal):
        """The record of a journal, 65 bytes. One that no marking lets pass has the record that is never."""
        out = (ctypes.c_uint8 * RECORD_BYTES)()
        _number(_library.ulz_fold(ctypes.byref(self), *_lent(journal), out))
        return bytes(out)

    def restore(self, record, rest, marking):
        """Applies a record, then runs the rest of the journal whose beginning it stands for. Answers as run."""
        ran = _answered(_library.ulz_restore(ctypes.byref(self), *_lent(record), *_lent(rest), marking))
        return ran.entries, ran.marking

    def lap(self, marking, stem, lap):
        """A stem and then a lap without end: None where it is accepted, or the lowest step that starves."""
        lapped = _answered(_library.ulz_lap(ctypes.byref(self), marking, *_lent(stem), *_lent(lap)))
        return lapped.step if lapped.verdict == 2 else None

    def can_end(self, marking, store=None):
        """Can the job still end from this marking on? Answers Ends: the verdict, which is a CanEnd; with REACHABLE the
        fewest entries that end it, otherwise None; and how many markings were looked at.

        The markings that are found on the way are written into the store, a bytearray of MARKING_BYTES for each of 1
        to STORE_MOST, in the order of finding and this one first: markings(store) lists them. Behind them it stays as
        it was. UNDECIDED leaves it full, and NONE leaves as many as were looked at. REACHABLE leaves at least so many,
        and the last that was looked at is finished. Where no store is lent, one of the largest is used."""
        if store is None:
            store = bytearray(STORE_MOST * MARKING_BYTES)
        room = (ctypes.c_uint8 * len(store)).from_buffer(store)
        ends = _answered(_library.ulz_can_end(ctypes.byref(self), marking, room, len(store)))
        verdict = CanEnd(ends.verdict)
        return Ends(verdict, ends.fewest if verdict == CanEnd.REACHABLE else None, ends.looked)

    def track_start(self, marking):
        """The tracker at the beginning of a job."""
        return _answered(_library.ulz_track_start(ctypes.byref(self), marking)).track

    def track_idle(self, track):
        """A while in which nothing is done."""
        return _answered(_library.ulz_track_idle(ctypes.byref(self), track)).track

    def track_step(self, track, entry):
        """Takes a step at the track's marking, and the tracker goes along."""
        return _answered(_library.ulz_track_step(ctypes.byref(self), track, entry)).track


def cabinet(arms, length=312):
    """The sheet of the cabinet's job for a mast with so many arms, 2 to 16: 72 + 15 * arms bytes. Refused with 30 where
    there is no such mast, and otherwise with 18 where the sheet is longer than this. Graph.read makes a graph of it.

    Step 0 is the reboot, steps 1 to arms are the checks of the arms, the lowest first, and step arms + 1 publishes. Person
    0 holds role 0 and checks, person 1 holds role 1 and publishes, and both may reboot. From the start, and again from
    every reboot on, each check can be done once, in order; then publishing is open until the next reboot."""
    room = (ctypes.c_uint8 * length)()
    return bytes(room[: _answered(_library.ulz_cabinet(_word(arms), room, length)).length])


def markings(store):
    """What a store has place for, in order; the first so many are what can_end has found."""
    return [Marking.read(store[at : at + MARKING_BYTES]) for at in range(0, len(store), MARKING_BYTES)]


def walk(journal, place):
    """The entry of a journal at a place from 0, or None at its end and beyond."""
    walked = _answered(_library.ulz_walk(*_lent(journal), _word(place)))
    return None if walked.ended else walked.entry


def join(n, first, second):
    """The record of the first and then the second, for n steps."""
    out = (ctypes.c_uint8 * RECORD_BYTES)()
    _number(_library.ulz_join(_word(n), *_lent(first), *_lent(second), out))
    return bytes(out)


def apply(n, record, marking):
    """What a record makes of a marking of n steps."""
    return _answered(_library.ulz_apply(_word(n), *_lent(record), marking)).marking


class _Asked(_Block):
    _fields_ = _fields("number waiting")


class _Allowed(_Block):
    _fields_ = _fields("number steps")


class _Ending(_Block):
    _fields_ = _fields("number finished")


class _Moved(_Block):
    _fields_ = [*_fields("number waiting"), ("marking", Marking)]


class _Kept(_Block):
    _fields_ = _fields("number waiting")


class _Ran(_Block):
    _fields_ = [*_fields("number waiting entries"), ("marking", Marking)]


class _Walked(_Block):
    _fields_ = [*_fields("number ended"), ("entry", Entry)]


class _Lapped(_Block):
    _fields_ = _fields("number waiting verdict step index lap_pass")


class _Ends(_Block):
    _fields_ = _fields("number verdict fewest looked")


class _Tracked(_Block):
    _fields_ = [*_fields("number waiting"), ("track", Track)]


class _Written(_Block):
    _fields_ = _fields("number length")


def _word(number):
    return _fits(number, 1 << 64)


def _lent(data):
    """Pointer and length."""
    data = bytes(data)
    return data, len(data)


def _answered(answer):
    if answer.number:
        raise Refused(answer)
    return answer


def _number(number):
    _answered(_Kept(number, 0))


def _load():
    named = os.environ.get("ULZHARTEP_LIB")
    if named:
        path = pathlib.Path(named)
        return ctypes.PyDLL(str(path / _SONAME if path.is_dir() else path))
    try:
        return ctypes.PyDLL(_SONAME)
    except OSError:
        return ctypes.PyDLL(str(pathlib.Path(__file__).resolve().parents[2] / "target" / "lib" / _SONAME))


def _declare(library):
    word, size, data = ctypes.c_uint64, ctypes.c_size_t, ctypes.c_char_p
    graph, room = ctypes.POINTER(Graph), ctypes.POINTER(ctypes.c_uint8)
    lent = [data, size]
    for name, answer, takes in [
        ("ulz_check", word, [graph]),
        ("ulz_ask", _Asked, [graph, Marking, Entry]),
        ("ulz_allowed_to", _Allowed, [graph, Marking, word]),
        ("ulz_allowed_to_someone", _Allowed, [graph, Marking]),
        ("ulz_take", _Moved, [graph, Marking, Entry]),
        ("ulz_finished", _Ending, [graph, Marking]),
        ("ulz_keep", _Kept, [graph, ctypes.POINTER(Marking), Entry]),
        ("ulz_run", _Ran, [graph, Marking, *lent]),
        ("ulz_walk", _Walked, [*lent, word]),
        ("ulz_fold", word, [graph, *lent, room]),
        ("ulz_join", word, [word, *lent, *lent, room]),
        ("ulz_apply", _Moved, [word, *lent, Marking]),
        ("ulz_record_read", word, [word, *lent, ctypes.POINTER(Record)]),
        ("ulz_record_write", _Written, [word, ctypes.POINTER(Record), room, size]),
        ("ulz_restore", _Ran, [graph, *lent, *lent, Marking]),
        ("ulz_read", word, [*lent, graph, ctypes.POINTER(Marking)]),
        ("ulz_write", _Written, [graph, Marking, room, size]),
        ("ulz_cabinet", _Written, [word, room, size]),
        ("ulz_lap", _Lapped, [graph, Marking, *lent, *lent]),
        ("ulz_can_end", _Ends, [graph, Marking, room, size]),
        ("ulz_track_start", _Tracked, [graph, Marking]),
        ("ulz_track_idle", _Tracked, [graph, Track]),
        ("ulz_track_step", _Tracked, [graph, Track, Entry]),
    ]:
        call = getattr(library, name)
        call.restype, call.argtypes = answer, takes
    return library


_library = _declare(_load())
