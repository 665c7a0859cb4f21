"""Rows of replays: up to each event, by schedules with an event too many, too few or too early, over crashes at each byte of a record, and views."""

# How many messages the store and the worker were sent by each event.
SENT = [(0, 0), (0, 0), (1, 0), (1, 1), (1, 1), (2, 1), (2, 2), (2, 2), (3, 2), (3, 3), (4, 3), (4, 3)]

# An event that writes a record, of one kind each: the bundle, how many of its events come before, and which then; the event; the record's
# length; and the events behind it, where fewer bytes than the record stay, and where it stands whole. A torn record counts as none. The sign !
# stands in front of an event that may not come.
CUTS = [
    # What the store prepared: it asks about it, or has forgotten it.
    ("TRANSFER", 8, "", "deliver w1 s1", 81, "recover s1;!deliver s1 w1;", "recover s1;deliver s1 w1;deliver w1 s1;!deliver w1 s1;"),
    # The worker's decision: it is told again in front of the boot, or the boot alone.
    ("TRANSFER", 9, "", "deliver s1 w1", 24, "recover w1;deliver w1 s1;begin w1;!deliver w1 s1;", "recover w1;deliver w1 s1;deliver w1 s1;!begin w1;"),
    # What the store applied: it has it prepared still, and asks.
    ("TRANSFER", 10, "", "deliver w1 s1", 15, "recover s1;deliver s1 w1;deliver w1 s1;", "recover s1;!deliver s1 w1;"),
    # The worker's boot.
    ("TRANSFER", 0, "crash w1;", "recover w1", 9, "!begin w1;", "recover w1;deliver w1 s1;begin w1;resume w1;!begin w1;"),
    # The boot that the store saw, which releases what it had prepared: it asks, or needn't.
    ("TRANSFER", 9, "crash w1;recover w1;", "deliver w1 s1", 11, "recover s1;deliver s1 w1;", "recover s1;!deliver s1 w1;"),
    # What the store released at an Abort, the answer to its question.
    ("TRANSFER", 9, "crash w1;recover w1;crash s1;recover s1;deliver s1 w1;", "deliver w1 s1", 15, "recover s1;deliver s1 w1;", "recover s1;!deliver s1 w1;"),
    # What the store refused, since the other worker was first: nobody is told, either way.
    ("COUNTERS", 0, "begin w1;begin w2;resume w1;resume w2;deliver w1 s1;deliver w2 s1;deliver s1 w1;deliver s1 w2;resume w1;resume w2;deliver w1 s1;"
     "deliver s1 w1;deliver w1 s1;", "deliver w2 s1", 15, "recover s1;!deliver s1 w2;", "recover s1;!deliver s1 w2;"),
    # The request that the worker closed: it is begun again, or not.
    ("COUNTERS", 0, "begin w3;", "resume w3", 12, "recover w3;begin w3;", "recover w3;!begin w3;"),
]


def listed(lines, way, count):
    """The first messages of a way, as a view lists them."""
    sent = [line.split(" ")[3] for line in lines if line.startswith(f"deliver {way} ")]
    return "".join(f"message {way} {number} {digits}\n" for number, digits in enumerate(sent[:count], 1)) + f"end {count}\n"


def growing():
    """Says whether the messages that it is given go on where those before ended."""
    before = b""

    def goes_on(output):
        nonlocal before
        messages = output.partition(b"end ")[0]
        good = messages.startswith(before)
        before = messages
        return good
    return goes_on


def rows(fill):
    lines = fill("[EVENTS]").splitlines()
    events = [" ".join(line.split(" ")[:3]) + ";" for line in lines]
    first = ["".join(events[:count]) for count in range(len(events) + 1)]

    def bundle(name, schedule):
        return fill(f"[{name}]") + schedule + "}}"

    def bars(name, schedule, number):
        return "replay", bundle(name, schedule), 9, f"not enabled {number}\n"

    def follow(name, schedule):
        """All these events come but one with a mark, which may not."""
        good, mark, bad = schedule.partition("!")
        comes = "replay", bundle(name, good), 0, lambda output: True
        return [comes, bars(name, good + bad, good.count(";") + 1)] if mark else [comes]

    # The run up to each of its events, twice, and what either was sent by then; both together are sent nothing.
    for count, (store, worker) in enumerate(SENT):
        text = bundle("TRANSFER", first[count])
        report = "fab report 1\n" + "".join(f"event {number} {line}\n" for number, line in enumerate(lines[:count], 1))
        report += fill("[OPEN]" if count < 10 else "[COMMITTED]") + f"end {count}\n"
        yield f"{count} events", [("replay", text, 0, report)] * 2
        yield f"{count} events, the store", [("view s1", text, 0, listed(lines, "w1 s1", store))]
        yield f"{count} events, the worker", [("view w1", text, 0, listed(lines, "s1 w1", worker))]
        yield f"{count} events, both", [("view s1 w1", text, 0, "end 0\n")]

    # Each event needs the one before it: none comes twice, before its time, or where one is left out.
    for at, event in enumerate(events):
        after = events[at + 1:]
        yield f"event {at + 1} twice", [bars("TRANSFER", first[at] + event + event + "".join(after), at + 2)]
        if after:
            yield f"event {at + 1} left out", [bars("TRANSFER", first[at] + "".join(after), at + 1)]
            yield f"event {at + 1} late", [bars("TRANSFER", first[at] + after[0] + event + "".join(after[1:]), at + 1)]

    for name, count, more, event, length, torn, whole in CUTS:
        front = first[count] + more
        # Of each record from none of its bytes to all of them stay, and no more.
        for keep in range(length + 1):
            yield f"{keep} of {length} bytes", follow(name, f"{front}crashin {keep} {event};{torn if keep < length else whole}")
        yield f"{length + 1} of {length} bytes", follow(name, f"{front}!crashin {length + 1} {event};")
        # Behind each event what was sent is a front of what was sent behind the next.
        for keep, behind in ((0, torn), (length, whole)):
            schedule = f"{front}crashin {keep} {event};{behind}".partition("!")[0].split(";")[:-1]
            for node in ("w1", "s1") if name == "TRANSFER" else ():
                grows = growing()
                yield f"{keep} of {length} bytes, {node}", [
                    (f"view {node}", bundle(name, "".join(it + ";" for it in schedule[:to])), 0, grows) for to in range(1, len(schedule) + 1)]
