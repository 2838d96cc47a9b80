#!/usr/bin/env python3
"""Makes the meter files of the program 'files', and what it must write for them.

    python3 tests/make_files.py            makes crates/files/data/*.meter, args and stdout
    python3 tests/make_files.py --check    only says whether they are as they would be made

What must be written comes from tests/model.py, never from the code. Every run makes the same.
"""

import os
import sys

sys.dont_write_bytecode = True  # no leavings beside the tests
import model  # noqa: E402

ROOT = os.path.dirname(os.path.dirname(os.path.abspath(__file__)))
FILES = os.path.join(ROOT, "crates", "files")
EXAMPLES = os.path.join(ROOT, "examples")

# ---- Records


def two(n):
    return n.to_bytes(2, "little")


def record(kind, payload, length=None):
    """A record; with a length of its own where it is to be wrong."""
    return two(2 + len(payload) if length is None else length) + two(kind) + payload


def partition(T, B, phase=0):
    return record(1, two(T) + two(B) + two(phase))


def task(partition, p, e):
    return record(2, two(partition) + two(p) + two(e))


def word(n):
    return record(3, n.to_bytes(4, "little"))


def release(index):
    return record(4, two(index))


def partitions(*rows):
    return b"".join(partition(*row) for row in rows)


def tasks(*rows):
    return b"".join(task(*row) for row in rows)


def words(*numbers):
    return b"".join(word(n) for n in numbers)


class Numbers:
    """Numbers that look random and are the same in every run, on every Python."""

    def __init__(self, seed):
        self.state = seed

    def word(self):
        self.state = (self.state * 6364136223846793005 + 1442695040888963407) % 2**64
        return self.state >> 32

    def among(self, low, high):
        return low + self.word() % (high - low + 1)


def events(rows, numbers, ticks, releases):
    """Words, and before the given ticks a release of one of the partitions that are active then."""
    table = [model.Partition(*(row + (0,))[:3]) for row in rows]
    b, o = model.fresh_start(table)
    out = b""
    for t in range(ticks):
        active = [h for h in range(len(table)) if b[h] > 0]
        if t in releases and active:
            index = active[numbers.word() % len(active)]
            b, o = model.release(b, o, index)
            out += release(index)
        n = numbers.word()
        b, o = model.tick(table, b, o, model.pick(table, b, o, n))
        out += word(n)
    return out


def at_the_edges(rows, ticks):
    """Words whose remainder is the first or the last that picks a candidate."""
    table = [model.Partition(*(row + (0,))[:3]) for row in rows]
    b, o = model.fresh_start(table)
    out = b""
    for t in range(ticks):
        shares = model.weights(model.candidates(table, b, o), b, o)
        before = sum(shares[: 1 + t // 2 % len(shares)])
        n = before - 1 if t % 2 else before + sum(shares)
        b, o = model.tick(table, b, o, model.pick(table, b, o, n))
        out += word(n)
    return out


# ---- The files

made = []


def add(name, content):
    made.append((name + ".meter", content))


TWO = partitions((4, 1), (6, 2))  # 01's first case; 20 bytes
ONE_TASK = task(0, 50, 1)
SIXTEEN = [(20 + 8 * h, 2 + h // 4, (7 * h) % 20) for h in range(16)]


def read_example(name):
    with open(os.path.join(EXAMPLES, name), "rb") as f:
        return f.read()


def plain_files():
    """Files that nothing is wrong with."""
    for name in ("first-case", "five-programs", "not-admitted"):
        add(name, read_example(name + ".meter"))
    add("no-tasks-no-events", TWO)
    add("no-events", TWO + tasks((0, 50, 1), (1, 60, 2)))
    add("no-tasks", TWO + words(7, 70000, 700000000))
    add("least-and-largest-word", TWO + words(0, 4294967295, 0, 4294967295, 4294967295, 0, 0, 4294967295))
    add("words-at-the-edges", TWO + at_the_edges([(4, 1), (6, 2)], 48))
    add("releases-only", TWO + release(1) + release(0))
    add("release-then-words", TWO + release(0) + words(40000, 60000) + release(1)
        + words(4, 5, 6, 7) + release(1) + words(8))
    add("period-1", partitions((1, 1)) + words(0, 65535, 65536, 4294967295))
    add("never-idle", partitions((5, 5)) + task(0, 9, 4) + words(65535, 65535, 65535, 65535, 65535, 65535))
    add("just-admitted", partitions((4, 2), (4, 2)) + words(*range(30000, 400000, 30000)))
    add("longest-period", partitions((4096, 4096, 4095)) + tasks((0, 65535, 65535)) + words(3, 5))
    add("sixteen-partitions", partitions(*SIXTEEN) + tasks((15, 4000, 3), (0, 90, 1), (15, 9000, 7))
        + events(SIXTEEN, Numbers(16), 120, {20, 41, 42, 77, 100}))
    late_phases = [(4, 1, 3), (6, 2, 5), (9, 2, 8)]
    add("nobody-at-first", partitions(*late_phases) + events(late_phases, Numbers(3), 40, {12, 25}))
    # After 98 ticks of idle the weights are 32768, 16384, 10922, 8192, and idle is listed with 0.
    # Word 100000 shows a negative weight that wraps, in 32 bits or in 64.
    add("idle-weighs-0", partitions((100, 1, 0), (100, 1, 2), (100, 1, 4), (100, 1, 6))
        + words(*[65535] * 98) + words(100000, 100000, 68265, 5))
    # At tick 10 an inactive partition's test fails, and the list is 0 alone.
    add("inactive-is-tested", partitions((10, 4, 6), (6, 2, 5), (60, 1, 0)) + words(*[65535] * 5) + release(1)
        + words(*[65535] * 5) + words(65535, 65535, 65535))
    car = [(10, 1), (20, 10), (30, 3), (50, 5)]
    add("car", partitions(*car) + events(car, Numbers(5), 100, {30, 60}))
    for seed in range(1, 5):
        rows, numbers = random_table(seed)
        add(f"mixed-{seed}", partitions(*rows) + tasks(*random_tasks(rows, numbers))
            + events(rows, numbers, 60, {5 * seed, 29, 44}))


def random_table(seed):
    """An admitted table without much room, the same for the same seed."""
    numbers = Numbers(1000 + seed)
    while True:
        rows = []
        for _ in range(numbers.among(3, 6)):
            T = numbers.among(3, 24)
            rows.append((T, numbers.among(1, max(1, T // 4)), numbers.among(0, T - 1)))
        table = [model.Partition(*row) for row in rows]
        if model.first_not_admitted(table) is None and sum(B / T for T, B, _ in rows) > 0.8:
            return rows, numbers


def random_tasks(rows, numbers):
    found = []
    for _ in range(numbers.among(3, 8)):
        h = numbers.among(0, len(rows) - 1)
        p = numbers.among(20, 400)
        found.append((h, p, numbers.among(1, 1 + p // 8)))
    return found


def response_files():
    """Tasks: how long they take, and which are late."""
    add("paper-tasks", partitions((200, 32)) + tasks((0, 400, 12), (0, 800, 24), (0, 1600, 48), (0, 3200, 96)))
    add("task-just-met", partitions((200, 32)) + tasks((0, 348, 12)))
    add("task-just-late", partitions((200, 32)) + tasks((0, 347, 12)))
    add("late-then-met", partitions((10, 2), (20, 4)) + tasks((0, 20, 3), (1, 500, 4), (0, 3000, 1), (1, 20, 20), (0, 26, 3)))
    add("interleaved-tasks", partitions((20, 5), (30, 6), (60, 12))
        + tasks((2, 600, 5), (0, 100, 2), (1, 200, 3), (0, 150, 4), (2, 900, 20), (1, 250, 1), (0, 400, 9), (2, 1000, 1)))
    # The last task's r is 2^32; a sum that wraps in 32 bits calls it met in 4095.
    add("sum-past-32-bits", partitions((4096, 1)) + tasks(*[(0, 65535, 65535)] * 16, (0, 65535, 16)))
    add("whole-processor", partitions((7, 7)) + tasks((0, 10, 3), (0, 20, 5), (0, 30, 6), (0, 40, 1)))
    add("tasks-64", partitions((16, 3), (24, 5)) + tasks(*[(i % 2, 2000 + 500 * i, 1 + i % 4) for i in range(64)]))


def wrong_records():
    """Refusal 8: cut records, other kinds and lengths, kinds out of order."""
    whole = {"partition": partition(4, 1), "task": ONE_TASK, "word": word(9), "release": release(0)}
    lead = {"partition": b"", "task": TWO, "word": TWO + ONE_TASK, "release": TWO + words(1, 2)}
    for length in (1, 2, 3):
        add(f"cut-head-{length}", partition(4, 1)[:length])
    add("cut-head-3-later", TWO + words(1) + release(0)[:3])
    for name, rec in whole.items():
        add(f"cut-{name}-after-head", lead[name] + rec[:4])
        add(f"cut-{name}-by-1", lead[name] + rec[:-1])
    for kind, (name, rec) in enumerate(whole.items(), 1):
        payload = rec[4:]
        after = words(3, 4)
        add(f"length-{name}-1-less", lead[name] + record(kind, payload[:-1]) + after)
        add(f"length-{name}-1-more", lead[name] + record(kind, payload + b"\0") + after)
        add(f"length-{name}-0", lead[name] + record(kind, payload, 0) + after)
        add(f"length-{name}-high-byte", lead[name] + record(kind, payload, 256 + 2 + len(payload)) + after)
    add("length-word-262-whole", TWO + record(3, bytes(260)) + words(3))
    add("length-65535", TWO + words(1) + record(3, bytes(4), 65535))
    for kind in (0, 5, 6, 7, 8, 256 + 1, 65535):
        add(f"kind-{kind}", TWO + record(kind, bytes([9, 0, 1, 0, 0, 0])))
    add("kind-259", TWO + record(256 + 3, bytes(4)) + words(1))
    add("zeros", bytes(40))
    add("order-2-before-1", ONE_TASK + TWO)
    add("order-1-after-2", TWO + ONE_TASK + partition(9, 1))
    add("order-1-after-3", TWO + words(1) + partition(9, 1))
    add("order-1-after-4", TWO + release(0) + partition(9, 1))
    add("order-2-after-3", TWO + ONE_TASK + words(1, 2) + ONE_TASK)
    add("order-2-after-4", TWO + release(0) + ONE_TASK)


def bad_partitions():
    """Refusal 1."""
    add("empty", b"")
    add("no-partitions-tasks", ONE_TASK)
    add("no-partitions-words", words(1, 2))
    add("period-0", partitions((0, 0, 0), (4, 1)))
    add("period-0-second", partitions((4, 1), (0, 1, 0), (6, 2)))
    add("period-4097", partitions((4, 1), (6, 2), (4097, 1)))
    add("period-65535", partitions((65535, 1), (0, 0)))
    add("budget-0", partitions((4, 1), (6, 0), (0, 0)))
    add("budget-above-period", partitions((4, 1), (6, 2), (8, 1), (9, 10)))
    add("phase-is-period", partitions((4, 1, 4)))
    add("phase-65535-last-of-16", partitions(*[(100, 1)] * 15, (100, 1, 65535)))
    add("partitions-17", partitions(*[(100, 1)] * 17))
    add("partitions-17-bad-fields", partitions(*[(0, 0)] * 17))


def bad_tasks():
    """Refusal 9."""
    add("task-partition-2-of-2", TWO + tasks((1, 50, 1), (2, 50, 1), (0, 50, 1)))
    add("task-partition-65535", TWO + tasks((65535, 50, 1)))
    add("task-partition-256", TWO + tasks((0, 50, 1), (0, 50, 1), (256, 50, 1)))
    add("task-gap-0", TWO + tasks((0, 0, 0)) + words(1))
    add("task-cost-0", TWO + tasks((0, 50, 1), (1, 50, 0)) + words(1))
    add("task-cost-above-gap", TWO + tasks(*[(0, 50, 1)] * 63, (1, 50, 51)))
    add("tasks-65", TWO + tasks(*[(0, 5000, 1)] * 65))
    add("tasks-65-bad-fields", TWO + tasks(*[(9, 0, 0)] * 65))


def not_admitted():
    """Refusal 2, which the first partition can't get."""
    add("not-admitted-middle", partitions((10, 4), (12, 4), (15, 4), (16, 4), (1000, 1)))
    add("not-admitted-last-of-16", partitions(*[(100, 6)] * 15, (100, 11)))
    # R is 16,773,120 where the period is 4093.
    add("not-admitted-by-far", partitions((4095, 4094), (4096, 1), (4093, 1)))


def bad_releases():
    """Refusal 6, after the lines before it."""
    add("release-not-there", TWO + tasks((0, 50, 1)) + release(2) + words(1, 2))
    add("release-255", TWO + words(20000, 40000) + release(255) + words(1))
    add("release-256", TWO + release(256))
    add("release-65535", TWO + words(1) + release(65535))
    add("release-before-phase", partitions((4, 1), (6, 2, 3)) + release(1))
    add("release-twice", TWO + words(40000) + release(1) + release(1) + words(1))
    add("release-spent", TWO + words(5) + release(0) + words(1))
    add("release-15-of-15", partitions(*[(100, 1)] * 15) + words(0) + release(14) + release(15))


def several():
    """Where several refusals apply: 8, 1, 9, 2, and 6 as it is met."""
    add("8-beats-earlier-6", TWO + release(9) + words(1) + word(2)[:-1])
    add("8-beats-1", partitions((0, 0), (4, 1)) + words(1) + b"\6")
    add("8-beats-9", TWO + tasks((7, 0, 0)) + record(3, bytes(3)))
    add("8-beats-2", partitions((4, 2), (4, 3)) + record(9, b""))
    add("1-beats-9", partitions((4, 1), (6, 7)) + tasks((5, 0, 0)) + words(1))
    add("1-beats-65-tasks", tasks(*[(0, 50, 1)] * 65))
    add("9-beats-2", partitions((4, 2), (4, 3)) + tasks((0, 50, 1), (0, 50, 60)) + words(1))
    add("2-beats-6", partitions((4, 2), (4, 3)) + release(9))


def big_files():
    """At the limit of 65,536 bytes, and over it."""
    rows = [(5, 1), (9, 2, 4), (20, 5), (31, 6, 30)]
    full = partitions(*rows) + tasks((0, 90, 2), (3, 900, 20), (2, 300, 7))
    full += events(rows, Numbers(65536), 8181, {0, 4000, 8180})
    assert len(full) == model.FILE_LIMIT
    add("full", full)
    # The size is judged before the records, so what is wrong at 0 doesn't count.
    add("over-by-1", bytes(model.FILE_LIMIT + 1))
    over = partitions(*rows) + tasks((0, 90, 2), (3, 900, 20), (2, 300, 7)) + release(0) + release(2)
    over += words(*[77] * ((model.FILE_LIMIT + 2 - len(over)) // 8))
    assert len(over) == model.FILE_LIMIT + 2
    add("over-by-2", over)


def make():
    """Every path under crates/files and its content."""
    for part in (plain_files, response_files, wrong_records, bad_partitions, bad_tasks, not_admitted,
                 bad_releases, several, big_files):
        part()
    names = [name for name, _ in made]
    assert len(set(names)) == len(names), "two files have one name"
    out = {os.path.join("data", name): content for name, content in made}
    # A program is run in a folder with a copy of its data/, so a plain name reaches the file.
    out["args"] = "".join(name + "\n" for name in names).encode()
    out["stdout"] = "".join(
        f"== {name}\n{model.schedule(content)}--\n{model.response(content)}" for name, content in made
    ).encode()
    return out


def there():
    """The paths that are made here and are there already."""
    data = os.path.join(FILES, "data")
    found = [os.path.join("data", name) for name in os.listdir(data)] if os.path.isdir(data) else []
    return found + [name for name in ("args", "stdout") if os.path.exists(os.path.join(FILES, name))]


def content_of(path):
    with open(os.path.join(FILES, path), "rb") as f:
        return f.read()


def main(given):
    if given not in ([], ["--check"]):
        print("usage: make_files.py [--check]", file=sys.stderr)
        return 2
    out, old = make(), there()
    if given:
        differ = sorted([p for p in out if p not in old or content_of(p) != out[p]] + [p for p in old if p not in out])
        for path in differ:
            print(f"crates/files/{path} isn't as it would be made")
        return 1 if differ else 0
    os.makedirs(os.path.join(FILES, "data"), exist_ok=True)
    for path in old:
        if path not in out:
            os.remove(os.path.join(FILES, path))
    for path, content in out.items():
        with open(os.path.join(FILES, path), "wb") as f:
            f.write(content)
    print(f"{len(made)} files, {sum(map(len, out.values()))} bytes in all")
    return 0


if __name__ == "__main__":
    sys.exit(main(sys.argv[1:]))
