#!/usr/bin/env python3
"""A plain model of document 01, to compare the programs with.

    python3 tests/model.py schedule FILE    what the schedule printer writes for FILE
    python3 tests/model.py response FILE    what the response printer writes for FILE
    python3 tests/model.py --selftest       01's sums by hand and its file case

FILE may be - for standard input. The model is written from 01's text alone, in its order and
words, and shares nothing with the code. Where 01 says "the least", the model looks at one
number after the other, and where it says "repeat", it repeats.
"""

import sys
from collections import namedtuple

# ---- Numbers

MOST_PARTITIONS = 16
MOST_TASKS = 64
LONGEST_PERIOD = 4096
LONGEST_GAP = 65535
FILE_LIMIT = 65536
IDLE = 255

Partition = namedtuple("Partition", "T B phase")
Task = namedtuple("Task", "partition p e")


class Refused(Exception):
    """A refusal: its number, and its second number."""

    def __init__(self, number, at):
        super().__init__(f"refused {number} at {at}")
        self.number, self.at = number, at


def ceil_div(a, n):
    """ceil(a / n), also for a negative a."""
    return -(-a // n)


def judge_partitions(table):
    """Refusal 1. The count is judged before the fields."""
    if not table:
        raise Refused(1, 0)
    if len(table) > MOST_PARTITIONS:
        raise Refused(1, MOST_PARTITIONS)
    for h, (T, B, phase) in enumerate(table):
        if not (1 <= T <= LONGEST_PERIOD and 1 <= B <= T and 0 <= phase <= T - 1):
            raise Refused(1, h)


def judge_tasks(tasks, partitions):
    """Refusal 9, where there are so many partitions."""
    if len(tasks) > MOST_TASKS:
        raise Refused(9, MOST_TASKS)
    for i, (partition, p, e) in enumerate(tasks):
        if not (0 <= partition < partitions and 1 <= p <= LONGEST_GAP and 1 <= e <= p):
            raise Refused(9, i)


# ---- Admission


def response_of_partition(table, h):
    """R: the least W >= 1 that is B_h and what those above take in W. None where it is above T_h."""
    for W in range(1, table[h].T + 1):
        if W == table[h].B + sum(ceil_div(W, above.T) * above.B for above in table[:h]):
            return W
    return None


def first_not_admitted(table):
    """The first partition that fails, or None for an admitted table."""
    for h in range(len(table)):
        if response_of_partition(table, h) is None:
            return h
    return None


# ---- Fresh start. A state is two lists, b and o, over the partitions of the table.


def fresh_start(table):
    b = [p.B if p.phase == 0 else 0 for p in table]
    o = [p.T if p.phase == 0 else p.phase for p in table]
    return b, o


# ---- Busy length, standing test


def deadline(table, b, o, h):
    """Counted from now."""
    return o[h] if b[h] > 0 else o[h] + table[h].T


def busy_rounds(table, b, o, h, w):
    """Each W in turn, up to the one that stands still. It may never end: the caller holds the deadline."""

    def due(j, W):
        return max(0, ceil_div(W - o[j], table[j].T)) * table[j].B

    start = w + b[h] + sum(b[:h])
    W, before = start, None
    while W != before:
        yield W
        own = due(h, W) if b[h] == 0 else 0
        W, before = start + sum(due(j, W) for j in range(h)) + own, W


def busy_length(table, b, o, h, w):
    """The least W that stands still, or None where a W is above the deadline."""
    for W in busy_rounds(table, b, o, h, w):
        if W > deadline(table, b, o, h):
            return None
    return W


def passes(table, b, o, h, w):
    return busy_length(table, b, o, h, w) is not None


def first_not_standing(table, b, o):
    """The first partition that fails with w = 0, or None where all pass."""
    for h in range(len(table)):
        if not passes(table, b, o, h, 0):
            return h
    return None


# ---- Candidates, weights, pick


def candidates(table, b, o):
    active = [h for h in range(len(table)) if b[h] > 0]
    if not active:
        return [IDLE]
    found = [active[0]]
    for candidate in active[1:] + [IDLE]:
        above = range(len(table)) if candidate == IDLE else range(candidate)
        if not all(passes(table, b, o, h, 1) for h in above):
            break
        found.append(candidate)
    return found


def weights(found, b, o):
    shares = [65536 * b[h] // o[h] for h in found if h != IDLE]
    if found[-1] == IDLE:
        shares.append(max(0, 65536 - sum(shares)))
    return shares


def pick(table, b, o, word):
    found = candidates(table, b, o)
    shares = weights(found, b, o)
    left = word % sum(shares)
    running = 0
    for candidate, share in zip(found, shares):
        running += share
        if running > left:
            return candidate
    raise AssertionError("the running sum ends at S, which is above any remainder")


# ---- Tick, release


def tick(table, b, o, picked):
    b, o = list(b), list(o)
    if picked != IDLE:
        b[picked] -= 1
    for h, (T, B, _) in enumerate(table):
        o[h] -= 1
        if o[h] == 0:
            b[h], o[h] = B, T
    return b, o


def release(b, o, index):
    """Refusal 6 for an index that isn't active, or isn't there."""
    if index >= len(b) or b[index] == 0:
        raise Refused(6, index)
    b = list(b)
    b[index] = 0
    return b, o


# ---- Task response


def task_response(table, tasks, i):
    """Ticks, or 0 for late, of the task at place i among all tasks."""
    partition, p, e = tasks[i]
    T, B, _ = table[partition]
    above = [x for x in tasks[:i] if x.partition == partition]
    r = e
    while T - B + r <= p:
        L = e + sum(ceil_div(T - B + r, x.p) * x.e for x in above)
        longer = L + ceil_div(L, B) * (T - B)
        if longer == r:
            return T - B + r
        r = longer
    return 0


# ---- Meter file

KIND_PARTITION, KIND_TASK, KIND_WORD, KIND_RELEASE = 1, 2, 3, 4
LENGTHS = {KIND_PARTITION: 8, KIND_TASK: 8, KIND_WORD: 6, KIND_RELEASE: 4}
# Kinds 3 and 4 are mixed, so they have one place in the order.
PLACES = {KIND_PARTITION: 1, KIND_TASK: 2, KIND_WORD: 3, KIND_RELEASE: 3}


def little(stretch):
    return int.from_bytes(stretch, "little")


def records(file):
    """The kind and payload of each record, or refusal 8. A file's size is judged before its records."""
    if len(file) > FILE_LIMIT:
        raise Refused(8, FILE_LIMIT)
    found, at, place = [], 0, 1
    while at < len(file):
        if at + 4 > len(file):
            raise Refused(8, at)
        length, kind = little(file[at : at + 2]), little(file[at + 2 : at + 4])
        if kind not in LENGTHS or length != LENGTHS[kind]:
            raise Refused(8, at)
        if at + 2 + length > len(file):
            raise Refused(8, at)
        if PLACES[kind] < place:
            raise Refused(8, at)
        found.append((kind, file[at + 4 : at + 2 + length]))
        at, place = at + 2 + length, PLACES[kind]
    return found


def judged(file):
    """Table, tasks and events of a file, or its refusal: 8, then 1, 9 and 2."""
    table, tasks, events = [], [], []
    for kind, payload in records(file):
        if kind == KIND_WORD:
            events.append((kind, little(payload)))
        else:
            fields = [little(payload[i : i + 2]) for i in range(0, len(payload), 2)]
            if kind == KIND_PARTITION:
                table.append(Partition(*fields))
            elif kind == KIND_TASK:
                tasks.append(Task(*fields))
            else:
                events.append((kind, fields[0]))
    judge_partitions(table)
    judge_tasks(tasks, len(table))
    failing = first_not_admitted(table)
    if failing is not None:
        raise Refused(2, failing)
    return table, tasks, events


# ---- The two printers: all that each writes, for any bytes


def schedule(file):
    lines = []
    try:
        table, _, events = judged(file)
        lines.append("tick pick")
        b, o = fresh_start(table)
        ticks = 0
        for kind, value in events:
            if kind == KIND_WORD:
                picked = pick(table, b, o, value)
                b, o = tick(table, b, o, picked)
                lines.append(f"{ticks} {'idle' if picked == IDLE else picked}")
                ticks += 1
            else:
                b, o = release(b, o, value)
                lines.append(f"{ticks} release {value}")
        lines.append(f"end {ticks}")
    except Refused as refusal:
        # 6 comes after the lines before it; for the others there are none.
        lines.append(str(refusal))
    return "".join(line + "\n" for line in lines)


def response(file):
    lines = []
    try:
        table, tasks, _ = judged(file)
        lines.append("partition task response")
        for i, task in enumerate(tasks):
            rank = sum(1 for x in tasks[:i] if x.partition == task.partition)
            lines.append(f"{task.partition} {rank} {task_response(table, tasks, i) or 'late'}")
        lines.append(f"end {len(tasks)}")
    except Refused as refusal:
        lines.append(str(refusal))
    return "".join(line + "\n" for line in lines)


# ---- 01's sums by hand


def at_phase_0(*pairs):
    return [Partition(T, B, 0) for T, B in pairs]


def selftest():
    failed = []

    def same(what, is_, should):
        if is_ != should:
            failed.append(what)
            print(f"{what}: {is_}, and 01 has {should}")

    two = at_phase_0((4, 1), (6, 2))
    b, o = fresh_start(two)
    same("(4,1), (6,2), list at tick 0", candidates(two, b, o), [0, 1, IDLE])
    same("(4,1), (6,2), weights at tick 0", weights(candidates(two, b, o), b, o), [16384, 21845, 27307])
    same("(4,1), (6,2) at 1, 1 and 1, 3", candidates(two, [1, 1], [1, 3]), [0])
    same("(4,1), (6,2) at 1, 1 and 4, 2, list", candidates(two, [1, 1], [4, 2]), [0, 1])
    same("(4,1), (6,2) at 1, 1 and 4, 2, weights", weights([0, 1], [1, 1], [4, 2]), [16384, 32768])
    same("word 50000 leaves", 50000 % (16384 + 32768), 848)
    same("word 50000 picks", pick(two, [1, 1], [4, 2], 50000), 0)

    same("(4,2), (4,2)", first_not_admitted(at_phase_0((4, 2), (4, 2))), None)
    same("(4,2), (4,3)", first_not_admitted(at_phase_0((4, 2), (4, 3))), 1)

    full = at_phase_0((5, 5))
    same("(5,5) alone, fresh", candidates(full, *fresh_start(full)), [0])

    three = at_phase_0((10, 4), (6, 2), (60, 1))
    same("(10,4), (6,2), (60,1), list", candidates(three, [4, 0, 1], [6, 1, 50]), [0])
    rounds = busy_rounds(three, [4, 0, 1], [6, 1, 50], 1, 1)
    same("partition 1, inactive, against", deadline(three, [4, 0, 1], [6, 1, 50], 1), 7)
    same("partition 1, inactive, would reach", next(W for W in rounds if W > 7), 11)
    same("partition 1, inactive, with w = 1", passes(three, [4, 0, 1], [6, 1, 50], 1, 1), False)

    four = at_phase_0(*[(100, 1)] * 4)
    b, o = [1, 1, 1, 1], [2, 4, 6, 8]
    same("four of (100,1), list", candidates(four, b, o), [0, 1, 2, 3, IDLE])
    same("four of (100,1), weights", weights(candidates(four, b, o), b, o), [32768, 16384, 10922, 8192, 0])

    car = at_phase_0((10, 1), (20, 10), (30, 3), (50, 5))
    same("(10,1), (20,10), (30,3), (50,5)", [response_of_partition(car, h) for h in range(4)], [1, 12, 15, 20])

    one = at_phase_0((200, 32))
    rows = [Task(0, *row) for row in ((400, 12), (800, 24), (1600, 48), (3200, 96))]
    same("T = 200, B = 32", [task_response(one, rows, i) for i in range(4)], [348, 552, 768, 2352])

    case = bytes.fromhex("08000100040001000000" "08000100060002000000")
    for word in (20000, 40000, 60000, 5, 50000, 0):
        case += bytes.fromhex("06000300") + word.to_bytes(4, "little")
    same("the first case as a file", schedule(case), "tick pick\n0 1\n1 idle\n2 idle\n3 0\n4 0\n5 1\nend 6\n")
    same("the first case, responses", response(case), "partition task response\nend 0\n")

    # Not a sum of 01's, but where its response sums leave 32 bits: r is 2^32, and the task is late.
    slow = at_phase_0((4096, 1))
    many = [Task(0, 65535, 65535)] * 16 + [Task(0, 65535, 16)]
    same("r = 2^32 is late", task_response(slow, many, 16), 0)

    print(f"model: {len(failed)} sums differ from 01's" if failed else "model: all sums are as 01 has them")
    return 1 if failed else 0


def main(words):
    if words == ["--selftest"]:
        return selftest()
    if len(words) != 2 or words[0] not in ("schedule", "response"):
        print("usage: model.py schedule|response FILE, or model.py --selftest", file=sys.stderr)
        return 2
    if words[1] == "-":
        file = sys.stdin.buffer.read()
    else:
        try:
            with open(words[1], "rb") as f:
                file = f.read()
        except OSError as e:
            print(f"model.py: {words[1]}: {e.strerror}", file=sys.stderr)
            return 2
    sys.stdout.write(schedule(file) if words[0] == "schedule" else response(file))
    return 0


if __name__ == "__main__":
    sys.exit(main(sys.argv[1:]))
