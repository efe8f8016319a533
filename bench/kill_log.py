"""What the two halves of bench/kill.sh share: a log by the format of docs/PROTOCOL.md, and by nothing of the program, and the faults that they
found."""

MARK, OPEN = b"TTLOG1", 1
JOIN, LINE, LEAVE, TAKEN, CUT = range(5)
FAULTS = []


def fault(words):
    FAULTS.append(words)
    print(f"kill: {words}", flush=True)


def number(piece):
    return int.from_bytes(piece, "big")


def entries_of(log, text):
    """The entries of a log, or None where it isn't one of the campaign of this text from its head to a closed gate."""
    head = MARK + len(text).to_bytes(4, "big") + text
    if not log.startswith(head):
        return None
    entries, gate = [], len(head)
    while gate < len(log) and log[gate] == OPEN:
        size = number(log[gate + 1 : gate + 5])
        entry = log[gate + 5 : gate + 5 + size]
        if len(entry) != size or not 2 <= size <= 4098:
            return None
        entries.append(entry)
        gate += 5 + size
    return entries if gate < len(log) else None


def leaves_of(entries):
    """The Leaves of who is there behind these entries. In these evenings who says bye is last told its reply, so a seat is free where its last
    Line is a bye whose Taken is there too; a Join that stands last of its seat isn't."""
    there, closing = set(), set()
    for entry in entries:
        kind, seat = entry[0], entry[1]
        if kind == JOIN:
            there.add(seat)
        elif kind == LINE and seat in there and b'"bye"' in entry:
            closing.add(seat)
        elif kind == TAKEN and seat in closing:
            there.discard(seat)
            closing.discard(seat)
        elif kind in (LEAVE, CUT):
            there.discard(seat)
    return [bytes([LEAVE, seat, 1]) for seat in sorted(there)]
