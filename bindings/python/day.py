"""A day of the sample job: 0 reboot, 1 order check, 2 publish. After a reboot nothing is published before the check,
also where the journal has been folded into a record and forgotten. Then the job is rewritten and cannot end any more.
A mast on which the order is checked at two places. And the cabinet's job for a mast with three arms."""

from ulzhartep import MARKING_BYTES, STORE_MOST, CanEnd, Entry, Graph, Marking, Refused, cabinet, markings, steps

REBOOT, CHECK, PUBLISH = Entry(0, 0, 0), Entry(0, 1, 0), Entry(1, 2, 1)


def shown(members):
    return "{" + ", ".join(map(str, steps(members))) + "}"


def print_marking(when, marking):
    print(f"{when}: done {shown(marking.done)}, due {shown(marking.due)}, included {shown(marking.included)}")


def job():
    """Publish waits for the check, a reboot makes the check due and excludes publishing, and the check includes it again."""
    graph = Graph.bare(steps=3, people=2, roles=2)
    graph.conditions[2] = 1 << 1
    graph.responses[0] = 1 << 1
    graph.includes[1] = 1 << 2
    graph.excludes[0] = 1 << 2
    graph.allows[:3] = [0b11, 0b01, 0b10]
    graph.holds[:2] = [0b01, 0b10]
    return graph


def double_mast():
    """Step 3 checks the order of the other half of the mast. It has the action of step 1, and so its roles, whatever they are."""
    graph = job()
    graph.steps = 4
    graph.labels[3] = graph.labels[1]
    graph.conditions[2] |= 1 << 3
    graph.responses[0] |= 1 << 3
    return graph


def refused(call, *arguments):
    """How the call is refused, which is what this day expects of it."""
    try:
        call(*arguments)
    except Refused as why:
        return why
    raise AssertionError("answered")


def print_end(when, graph, marking, room):
    """With a store for so many markings."""
    store = bytearray(room * MARKING_BYTES)
    ends = graph.can_end(marking, store)
    can = {CanEnd.REACHABLE: "yes", CanEnd.NONE: "no", CanEnd.UNDECIDED: "undecided"}[ends.verdict]
    print(f"{when}, can end: {can}, looked at {ends.looked}")
    if ends.verdict == CanEnd.REACHABLE:
        print(f"fewest entries: {ends.fewest}")
        print_marking("ended", markings(store)[ends.looked - 1])


def the_end(marking):
    """After a reboot the check ends the job. If the office rewrites it so that nobody may check, nothing does."""
    graph = job()
    print_end("rebooted", graph, marking, STORE_MOST)
    print_end("with a store for one marking", graph, marking, 1)
    graph.allows[1] = 0
    print_end("rewritten so that nobody may check", graph, marking, STORE_MOST)


def three_arms():
    """The box writes the sheet. It is published once each arm has been checked, from the ground up."""
    why = refused(cabinet, 17)
    print(f"cabinet with 17 arms: refused with {why.number}, {why.text}")
    sheet = cabinet(3)
    print(f"cabinet with 3 arms: {len(sheet)} bytes")

    graph, start = Graph.read(sheet)
    print_marking("it begins with", start)
    publish = bytes(Entry(1, 4, 1))
    why = refused(graph.run, start, bytes(REBOOT) + publish)
    print(f"rebooted, publish: refused with {why.number} at entry {why.entries}, {why.text}")
    checks = b"".join(bytes(Entry(0, arm, 0)) for arm in (1, 2, 3))
    entries, published = graph.run(why.marking, checks + publish)
    print(f"three checks, publish: {entries} entries taken")
    print_marking("published", published)


def main():
    graph, start = job(), Marking(done=0, due=0, included=0b111)
    graph.check()
    why = refused(graph.ask, start, PUBLISH)
    print(f"publish, asked: refused with {why.number}, {why.text}: {shown(why.waiting)}")

    marking = Marking(included=0b111)
    graph.keep(marking, REBOOT)
    print_marking("rebooted", marking)
    why = refused(graph.keep, marking, PUBLISH)
    print(f"publish: refused with {why.number}, {why.text}")
    for person in range(graph.people):
        print(f"allowed to person {person}: {shown(graph.allowed_to(marking, person))}")

    record = graph.fold(bytes(REBOOT))
    print(f"folded: {len(bytes(REBOOT))} bytes of journal")

    # From here on only the record knows of the reboot.
    why = refused(graph.restore, record, bytes(PUBLISH), start)
    print(f"restored, publish: refused with {why.number} at entry {why.entries}, {why.text}")
    print_marking("before that entry", why.marking)
    entries, checked = graph.restore(record, bytes(CHECK), start)
    print(f"restored, check: {entries} entry taken")
    print_marking("checked", checked)

    graph.ask(checked, PUBLISH)
    print("publish, asked: allowed")
    published = graph.take(checked, PUBLISH)
    print_marking("published", published)
    print(f"finished: {'yes' if graph.finished(published) else 'no'}")

    starved = graph.lap(start, bytes(CHECK), bytes(REBOOT))
    if starved is not None:
        print(f"rebooting for ever: starves step {starved}")

    the_end(marking)
    mast, start = double_mast(), Marking(included=0b1111)
    mast.check()
    print(f"double mast, allowed to person 1: {shown(mast.allowed_to(start, 1))}")
    mast.allows[mast.labels[1]] |= 1 << 1
    print(f"the desk may check, allowed to person 1: {shown(mast.allowed_to(start, 1))}")
    three_arms()


if __name__ == "__main__":
    main()
