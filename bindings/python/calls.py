"""Every call once or twice, against what the rules say of the sample job; and what does not fit is refused by Python."""

import ulzhartep
from day import CHECK, PUBLISH, REBOOT, double_mast, job, refused
from ulzhartep import MARKING_BYTES, STORE_MOST, CanEnd, Entry, Graph, Marking, Record, Refusal, cabinet, markings


def overflows(call, *arguments):
    try:
        call(*arguments)
    except OverflowError:
        return True
    return False


def five_bodies(six):
    """The sample job in both forms, which have bodies 2 to 5 in common, since every step is its own action."""
    contents = bytes([5, 1, 26, 0, 3, 0, 2, 29, 0, 24, 0, 3, 53, 0, 6, 0, 4, 59, 0, 4, 0, 5, 63, 0, 12, 0])
    five = contents + six[31:34] + six[35:81]
    assert len(five) == 75 and Graph.read(five) == Graph.read(six)
    unknown = six[:82] + b"\3" + six[83:]
    assert refused(Graph.read, unknown).refusal == Refusal.BEYOND


def actions():
    """2 and 4 as far as they are of actions; and steps of one action have one role set."""
    for name, row, value, refusal in [
        ("actions", None, 0, Refusal.COUNTS),
        ("actions", None, 65, Refusal.COUNTS),
        ("labels", 2, 3, Refusal.BEYOND),
        ("labels", 3, 1, Refusal.BEYOND),
        ("allows", 3, 1, Refusal.BEYOND),
    ]:
        graph = job()
        if row is None:
            setattr(graph, name, value)
        else:
            getattr(graph, name)[row] = value
        assert refused(graph.check).refusal == refusal
    mast, start = double_mast(), Marking(included=0b1111)
    assert [mast.allowed_to(start, person) for person in (0, 1)] == [0b1011, 0b0001]
    assert refused(mast.ask, start, Entry(1, 3, 1)).text == "the step's action does not have this role"


def ends(rebooted):
    """The three verdicts, and what each leaves in the store."""
    graph, rest = job(), Marking.read(b"\xa5" * MARKING_BYTES)
    assert graph.can_end(Marking(included=0b111)) == (CanEnd.REACHABLE, 0, 1)
    store = bytearray(b"\xa5" * 3 * MARKING_BYTES)
    assert graph.can_end(rebooted, store) == (CanEnd.REACHABLE, 1, 2)
    assert markings(store) == [rebooted, Marking(0b011, 0, 0b111), rest]
    assert graph.can_end(rebooted, bytearray(MARKING_BYTES)) == (CanEnd.UNDECIDED, None, 1)
    graph.allows[1], store = 0, bytearray(b"\xa5" * 2 * MARKING_BYTES)
    assert graph.can_end(rebooted, store) == (CanEnd.NONE, None, 1) and markings(store) == [rebooted, rest]


def turns():
    """On the double mast a store for 5 ends with a finished marking, whose turn does not come: a sixth is found before."""
    mast, store = double_mast(), bytearray(5 * MARKING_BYTES)
    rebooted = mast.take(Marking(included=0b1111), REBOOT)
    assert mast.can_end(rebooted, store) == (CanEnd.UNDECIDED, None, 3)
    assert [mast.finished(marking) for marking in markings(store)] == [False] * 4 + [True]
    assert mast.can_end(rebooted) == (CanEnd.REACHABLE, 2, 5)


def stores(start):
    """22, after 8: a store is then left alone. One of the largest is a store."""
    graph, most = job(), STORE_MOST * MARKING_BYTES
    for length in 0, 1, MARKING_BYTES - 1, MARKING_BYTES + 1, most - 1, most + 1, most + MARKING_BYTES:
        store = bytearray(b"\xa5" * length)
        assert refused(graph.can_end, start, store).refusal == Refusal.STORE and store == b"\xa5" * length
    assert refused(graph.can_end, Marking(8), bytearray()).refusal == Refusal.OUTSIDE
    assert refused(Graph.bare(0, 1, 1).can_end, start).refusal == Refusal.COUNTS
    text = "the store is no whole number of markings from 1 to 2,048"
    assert refused(graph.can_end, start, bytearray(7)).text == text
    assert graph.can_end(start, bytearray(most)).looked == 1


def mast(arms):
    """The cabinet's job, made by hand."""
    graph, publish = Graph.bare(steps=arms + 2, people=2, roles=2), arms + 1
    checks = sum(1 << arm for arm in range(1, publish))
    graph.responses[0], graph.includes[0], graph.excludes[0] = checks, 0b10, checks - 0b10 + (1 << publish)
    for arm in range(1, publish):
        graph.includes[arm], graph.excludes[arm], graph.allows[arm] = 1 << arm + 1, 1 << arm, 0b01
    graph.allows[0], graph.allows[publish], graph.holds[:2] = 0b11, 0b10, [0b01, 0b10]
    return graph, Marking(due=checks, included=0b11)


def cabinets():
    """Every mast, with as much room as it needs and a byte less; 30 comes before 18; and a job on three arms."""
    for arms in range(2, 17):
        sheet = cabinet(arms)
        assert len(sheet) == 72 + 15 * arms and Graph.read(sheet) == mast(arms) and cabinet(arms, len(sheet)) == sheet
        assert refused(cabinet, arms, len(sheet) - 1).refusal == Refusal.ROOM
    for arms in 0, 1, 17, 256 + 2, (1 << 64) - 1:
        assert refused(cabinet, arms).refusal == refused(cabinet, arms, 0).refusal == Refusal.ARMS
    assert refused(cabinet, 1).text == "the number of arms is not from 2 to 16"
    assert overflows(cabinet, -1) and overflows(cabinet, 1 << 64)
    graph, start = Graph.read(cabinet(3))
    climbed = b"".join(bytes(Entry(0, arm, 0)) for arm in (1, 2, 3))
    assert [graph.finished(graph.run(start, climbed[:length])[1]) for length in (0, 3, 6, 9)] == [False] * 3 + [True]
    assert graph.run(start, climbed + bytes(Entry(1, 4, 1))) == (4, Marking(0b11110, 0, 0b10001))
    early = refused(graph.run, start, climbed + bytes(REBOOT) + bytes(Entry(1, 4, 1)))
    assert (early.refusal, early.entries) == (Refusal.EXCLUDED, 4)
    assert refused(graph.run, start, climbed[3:]).refusal == Refusal.EXCLUDED


def waiting(start):
    """Every call that can wait, where publishing waits for all three steps and then for all but the check."""
    graph = job()
    graph.conditions[2] = 0b111
    assert refused(graph.ask, start, PUBLISH).waiting == 0b111
    why = refused(graph.take, start, PUBLISH)
    assert (why.waiting, str(why)) == (0b111, "15 the step waits for steps that are not done: 0 1 2")
    assert refused(graph.keep, start, PUBLISH).waiting == 0b111
    assert refused(graph.track_step, graph.track_start(start), PUBLISH).waiting == 0b111
    late = refused(graph.run, start, bytes(CHECK) + bytes(PUBLISH))
    assert (late.waiting, late.entries) == (0b101, 1)
    assert refused(graph.restore, graph.fold(bytes(CHECK)), bytes(PUBLISH), start).waiting == 0b101
    lap = refused(graph.lap, start, bytes(CHECK), bytes(PUBLISH))
    assert (lap.waiting, lap.lap_pass) == (0b101, 1)
    assert refused(graph.run, start, bytes(REBOOT) + bytes(PUBLISH)).waiting is None


def main():
    graph, start = job(), Marking(0, 0, 0b111)
    rebooted = Marking(0b001, 0b010, 0b011)
    sheet = graph.write(start)
    assert len(sheet) == 84 and Graph.read(sheet) == (graph, start)
    assert refused(Graph.read, sheet[:-1]).refusal == Refusal.LAYOUT
    assert refused(graph.write, start, 83).refusal == Refusal.ROOM
    assert refused(Graph.bare(65, 1, 1).check).refusal == Refusal.COUNTS
    five_bodies(sheet)
    actions()
    asked = graph.ask(start, REBOOT), graph.take(start, REBOOT), start
    assert asked == (None, rebooted, Marking(0, 0, 0b111))
    for entry, refusal in [((2, 0, 0), Refusal.UNKNOWN), ((1, 1, 0), Refusal.NOT_HELD), ((1, 1, 1), Refusal.NOT_ON_STEP)]:
        for call in graph.ask, graph.take:
            assert refused(call, start, Entry(*entry)).refusal == refusal
    assert refused(graph.ask, rebooted, PUBLISH).refusal == Refusal.EXCLUDED
    assert refused(graph.ask, Marking(8), REBOOT).refusal == Refusal.OUTSIDE
    assert [graph.allowed_to(marking, person) for marking in (start, rebooted) for person in (0, 1)] == [0b011, 0b001, 0b011, 0b001]
    assert (graph.allowed_to_someone(rebooted), graph.allowed_to_someone(Marking(0b010, 0, 0b111))) == (0b011, 0b111)
    for person in 2, 256, (1 << 64) - 1:
        assert refused(graph.allowed_to, start, person).refusal == Refusal.UNKNOWN
    for call, arguments in (graph.allowed_to, (Marking(8), 2)), (graph.allowed_to_someone, (Marking(8),)):
        assert refused(call, *arguments).refusal == Refusal.OUTSIDE
    assert graph.run(start, bytes(REBOOT) + bytes(CHECK)) == (2, Marking(0b011, 0, 0b111))
    assert refused(graph.run, start, b"\0").refusal == Refusal.LENGTH
    stopped = refused(graph.run, start, bytes(REBOOT) + bytes(PUBLISH))
    assert (stopped.number, stopped.entries, stopped.marking) == (14, 1, rebooted)
    day = bytes(REBOOT) + bytes(CHECK)
    assert [ulzhartep.walk(day, place) for place in range(3)] == [REBOOT, CHECK, None]
    first, second = graph.fold(bytes(REBOOT)), graph.fold(bytes(CHECK))
    assert ulzhartep.join(3, first, second) == graph.fold(day)
    assert ulzhartep.apply(3, first, start) == rebooted
    record = Record.read(3, first)
    assert (record.done, record.due_set, record.in_clear) == (0b001, 0b010, 0b100) and record.write(3) == first
    assert refused(Record.read, 3, first[:64]).refusal == Refusal.ILL_FORMED
    assert graph.lap(start, b"", day) is None
    lap = refused(graph.lap, start, b"", bytes(REBOOT) + bytes(PUBLISH))
    assert (lap.number, lap.index, lap.lap_pass) == (14, 1, 1)
    assert refused(graph.lap, start, b"", b"").refusal == Refusal.EMPTY_LAP
    track = graph.track_start(start)
    assert (track.rank, track.flag, graph.track_idle(track)) == (1, 1, track)
    track = graph.track_step(track, REBOOT)
    assert (track.rank, track.flag, track.marking) == (1, 0, rebooted)
    ends(rebooted)
    turns()
    stores(start)
    cabinets()
    waiting(start)
    assert overflows(Entry, 256, 0, 0) and overflows(Marking, 1 << 64) and overflows(ulzhartep.apply, -1, first, start)
    assert overflows(graph.allowed_to, start, 1 << 64) and overflows(graph.allowed_to, start, -1)
    assert overflows(graph.conditions.__setitem__, 0, 1 << 64) and overflows(setattr, graph, "steps", -1)
    print("every call answers")


if __name__ == "__main__":
    main()
