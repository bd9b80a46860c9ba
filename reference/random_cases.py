"""Cases of the direct format by a seed, logs that are too long, tables that are too short and full counts among them."""

from __future__ import annotations

from random import Random

from machine import DIALS, KINDS, MOST_SLOTS, Kind

LARGEST_NUMBER = (1 << 32) - 1


def chosen_kind(rng: Random) -> Kind:
    return rng.choice(list(KINDS.values()))


def part(rng: Random, size: int) -> int:
    """A number below the size: at its limits, small, or any."""
    return rng.choice([0, 1, size - 1, rng.randrange(9), rng.randrange(9), rng.randrange(size), rng.randrange(size)])


def asked_range(rng: Random, slots: int) -> tuple[int, int]:
    """Mostly a range of the log; now and then one that is turned back."""
    chance = rng.random()
    if chance < 0.04:
        return rng.randint(0, slots + 2), rng.randint(0, slots + 2)
    if chance < 0.06:
        return rng.choice([0, slots, LARGEST_NUMBER]), rng.choice([0, slots + 1, LARGEST_NUMBER])
    low, high = sorted((rng.randint(0, slots), rng.randint(0, slots)))
    return (low, high) if low < high else (0, slots)

MARKS = [1] * 40 + [0, 2, 255]


def held(rng: Random, kind: Kind) -> str:
    """The numbers of a reading as held. Dials may be held beyond their ends."""
    sizes = (1 << 16, 1 << 16) if kind is DIALS and rng.random() < 0.2 else kind.sizes
    return " ".join(str(part(rng, size)) for size in sizes)


def packed_value(rng: Random, kind: Kind) -> list[int]:
    if rng.random() < 0.03:
        return [rng.randrange(256) for _ in range(kind.record_bytes)]
    numbers = [part(rng, size) for size in kind.sizes]
    return [byte for number, width in zip(numbers, kind.widths) for byte in number.to_bytes(width, "little")]


def store(rng: Random, kind: Kind, slots: int) -> list[str]:
    if rng.random() < 0.7:
        return [f"slot {rng.choice(MARKS)} {held(rng, kind)}" for _ in range(slots)]
    records = [[rng.choice(MARKS), *packed_value(rng, kind)] for _ in range(slots)]
    left_over = [rng.randrange(256) for _ in range(rng.randrange(kind.record_bytes + 1))]
    return [" ".join(["packed", *(str(byte) for bytes_ in [*records, left_over] for byte in bytes_)])]


def any_agreed(rng: Random) -> int:
    return rng.choice([0, 1, 1, 2, 2, 3, 3, 4, 5, 1_024, 1_025, LARGEST_NUMBER])


def any_spans(rng: Random, slots: int) -> list[tuple[int, int]]:
    count = rng.choice([0, 0, 0, 0, 0, 0, 1, 2, 5, 32, 33])
    return [(rng.randint(0, slots + 1), rng.randint(0, slots + 1)) for _ in range(count)]


def attempt(rng: Random, slots: int) -> str:
    low, high = asked_range(rng, slots)
    other = rng.choice([0, slots // 2, slots + 3, MOST_SLOTS, MOST_SLOTS + 1, LARGEST_NUMBER])
    count = slots if rng.random() < 0.8 else other
    spans = [end for ends in any_spans(rng, slots) for end in ends]
    return " ".join(["try", *map(str, [count, any_agreed(rng), low, high, *spans])])


def orders(rng: Random, slots: int, count: int) -> list[str]:
    lines = []
    for _ in range(count):
        if rng.random() < 0.15:
            lines += ["rehearse", *(attempt(rng, slots) for _ in range(rng.randint(0, 8))), "end"]
        else:
            low, high = asked_range(rng, slots)
            lines.append(f"query {low} {high}")
    return lines


def small(rng: Random) -> list[str]:
    kind = chosen_kind(rng)
    slots = rng.choice([rng.randint(0, 1), *(rng.randint(2, 14) for _ in range(4)), rng.randint(2, 60)])
    lines = [f"kind {kind.word}", f"short {rng.choice([1, 1, 2, 2, 3, 3, 4, any_agreed(rng)])}"]
    lines += [f"span {low} {high}" for low, high in any_spans(rng, slots)]
    lines += store(rng, kind, slots)
    if rng.random() < 0.2:
        length = rng.choice([0, rng.randint(0, slots + 1), LARGEST_NUMBER])
        lines.append(f"window {rng.randint(0, slots + 1)} {length}")
    return lines + orders(rng, slots, rng.randint(1, 60))


def changing(rng: Random) -> list[str]:
    """A ledger whose rule, store and lent chain table change on the way."""
    kind = chosen_kind(rng)
    lines = [f"kind {kind.word}"]
    for _ in range(rng.randint(2, 4)):
        slots = rng.randint(3, 12)
        lines += ["window 0 0", *store(rng, kind, slots), f"short {any_agreed(rng)}"]
        lines += [f"steps {rng.choice([0, 1_022, 1_023, 1_023, 1_023, 1_500])}"]
        lines += orders(rng, slots, rng.randint(1, 12))
    return lines


def at_table_limits(rng: Random) -> list[str]:
    kind = chosen_kind(rng)
    slots = rng.choice([9, 9, MOST_SLOTS, MOST_SLOTS + 1])
    lines = [f"kind {kind.word}", f"short {any_agreed(rng)}", *store(rng, kind, slots)]
    lines += [f"distances {rng.choice([0, 1_023, 1_024, 2_000])}", f"steps {rng.choice([0, 1_022, 1_023, 1_500])}"]
    return lines + orders(rng, slots, 6) + ["query 10 10", "query 3 3", f"query 0 {slots}", f"query 0 {slots + 1}"]


def with_full_counts(rng: Random) -> list[str]:
    """Number 1, which comes after 65,535 counted answers, and what still works then."""
    before = rng.randint(0, 5)
    lines = ["short 2", *store(rng, KINDS["wh"], 9), *(f"query {at} {at + 3}" for at in range(before))]
    lines += [f"repeat {65_535 - before - 1} 4 4", "query 0 5", "query 0 5", "query 0 9", "repeat 3 9 9"]
    return lines + ["rehearse", *(attempt(rng, 9) for _ in range(4)), "end", "query 1 1"]


def long(rng: Random) -> list[str]:
    kind = chosen_kind(rng)
    slots = rng.randint(200, MOST_SLOTS)
    lines = [f"kind {kind.word}", f"short {rng.choice([1, 1, 2])}", *store(rng, kind, slots)]
    return lines + orders(rng, slots, 40)


def make_cases(seed: int, number: int) -> bytes:
    """Text `number` of a seed: always the same. Every tenth has the large cases."""
    rng = Random(f"direct {seed} {number}")
    recipes = [with_full_counts, at_table_limits, long] if number % 10 == 0 else [small, small, small, changing]
    lines = [line for recipe in recipes for line in ("case", *recipe(rng), "close")]
    return "".join(f"{line}\n" for line in lines).encode("ascii")
