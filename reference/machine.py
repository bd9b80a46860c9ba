"""The auditor's machine by brute force: kinds, stores, rules, and a ledger that is a plain list of released ranges.

Which boundaries the released ranges link, and by which chain, is found by a breadth-first search over that list; a
query is judged by looking at every pair of boundaries that it would newly link.
"""

from __future__ import annotations

from collections import deque
from collections.abc import Iterable, Iterator
from dataclasses import dataclass, field, replace

# ---------------------------------------------------------------------------------------------------------------------
# Kinds of reading

# A value of a kind is the tuple of its numbers.
Value = tuple[int, ...]


@dataclass(frozen=True)
class Kind:
    """A kind of reading: its word, and for each of its numbers how many values it takes and in how many bytes."""

    word: str
    sizes: tuple[int, ...]
    widths: tuple[int, ...]
    by_xor: bool = False

    @property
    def zero(self) -> Value:
        return tuple(0 for _ in self.sizes)

    @property
    def record_bytes(self) -> int:
        return sum(self.widths)

    def meaning(self, held: Iterable[int]) -> Value:
        """What held numbers mean: a number beyond its end means its remainder, for a dial runs over and goes on."""
        return tuple(number % size for number, size in zip(held, self.sizes, strict=True))

    def add(self, one: Value, other: Value) -> Value:
        if self.by_xor:
            return tuple(x ^ y for x, y in zip(one, other, strict=True))
        return self.meaning(x + y for x, y in zip(one, other, strict=True))

    def inverse(self, value: Value) -> Value:
        return value if self.by_xor else self.meaning(-x for x in value)

    def from_bytes(self, data: bytes) -> Value | None:
        """The value of these bytes, or None where they lie beyond a number's end and so are no value."""
        numbers = []
        for width in self.widths:
            numbers.append(int.from_bytes(data[:width], "little"))
            data = data[width:]
        fits = all(number < size for number, size in zip(numbers, self.sizes, strict=True))
        return tuple(numbers) if fits else None


WH = Kind("wh", (1 << 32,), (4,))
TOGGLES = Kind("toggles", (1 << 16,), (2,), by_xor=True)
DIALS = Kind("dials", (10_000, 1_000), (2, 2))
KINDS = {kind.word: kind for kind in (WH, TOGGLES, DIALS)}


# ---------------------------------------------------------------------------------------------------------------------
# Stores

KEPT_MARK = 1


@dataclass(frozen=True)
class Slot:
    """One slot of a log. A lost slot has a reading too; no answer shows it."""

    kept: bool
    reading: Value


def unpack(kind: Kind, data: bytes) -> list[Slot]:
    """The slots of packed bytes: for each slot a mark byte and the value's bytes. What is left over is no slot."""
    length = 1 + kind.record_bytes
    slots = []
    for start in range(0, len(data) - length + 1, length):
        value = kind.from_bytes(data[start + 1 : start + length])
        # A record that holds no value is lost whatever its mark says, and counts as zero.
        slots.append(Slot(False, kind.zero) if value is None else Slot(data[start] == KEPT_MARK, value))
    return slots


def window(slots: list[Slot], start: int, length: int) -> list[Slot]:
    """The slots from `start` on, at most `length` of them; none where the start lies behind the end."""
    return slots[start : start + length]


# ---------------------------------------------------------------------------------------------------------------------
# Rules

MOST_SPANS = 32
LONGEST_AGREED = 1_024


@dataclass(frozen=True)
class Range:
    low: int
    high: int


@dataclass(frozen=True)
class Rule:
    """What is shorter than the agreed length, joined with the listed spans."""

    agreed: int
    spans: tuple[Range, ...] = ()

    def protects(self, low: int, high: int) -> bool:
        # No pair but a range is protected: a span listed the wrong way round stays in the list and has no effect.
        if low >= high:
            return False
        # A rule that was made wrong errs on the safe side, and protects every range.
        if not 1 <= self.agreed <= LONGEST_AGREED or len(self.spans) > MOST_SPANS:
            return True
        return high - low < self.agreed or Range(low, high) in self.spans


# ---------------------------------------------------------------------------------------------------------------------
# What a list of ranges links


def neighbours(ranges: Iterable[Range]) -> dict[int, list[tuple[int, Range]]]:
    """For each boundary that is an end of a range: the other ends, with the ranges that lead there."""
    near: dict[int, list[tuple[int, Range]]] = {}
    for r in ranges:
        near.setdefault(r.low, []).append((r.high, r))
        near.setdefault(r.high, []).append((r.low, r))
    return near


def reached(ranges: Iterable[Range], start: int) -> dict[int, tuple[int, Range] | None]:
    """The boundaries that steps over the ranges lead to from `start`, each with the step that first came there."""
    near = neighbours(ranges)
    came: dict[int, tuple[int, Range] | None] = {start: None}
    queue = deque([start])
    while queue:
        here = queue.popleft()
        for there, r in near.get(here, ()):
            if there not in came:
                came[there] = (here, r)
                queue.append(there)
    return came


def linked(ranges: Iterable[Range], one: int, other: int) -> bool:
    return other in reached(ranges, one)


def newly_linked(ranges: list[Range], query: Range) -> Iterator[tuple[int, int]]:
    """The pairs i < j that the ranges link together with the query and do not link alone, by i and then by j.

    Only boundaries that the query's own ends lead to can be in such a pair. How many slots the log has plays no part:
    a pair may lie beyond them where the ledger, or a rehearsal, has seen a longer log before.
    """
    together = set(reached([*ranges, query], query.low))
    alone: dict[int, set[int]] = {}
    for boundary in together:
        if boundary not in alone:
            members = set(reached(ranges, boundary))
            alone.update((member, members) for member in members)
    for i in sorted(together):
        for j in sorted(together - alone[i]):
            if i < j:
                yield i, j


# ---------------------------------------------------------------------------------------------------------------------
# Answers


@dataclass(frozen=True)
class Step:
    """One step of a chain: a range, walked from its low end to its high end (+) or back (−)."""

    range: Range
    forward: bool
    new: bool


@dataclass(frozen=True)
class Released:
    sum: Value


@dataclass(frozen=True)
class Withheld:
    low: int
    high: int
    chain: tuple[Step, ...]


@dataclass(frozen=True)
class Lost:
    slot: int


@dataclass(frozen=True)
class Refused:
    number: int


@dataclass(frozen=True)
class Free:
    pass


Answer = Released | Withheld | Lost | Refused


@dataclass(frozen=True)
class Counts:
    released: int = 0
    withheld: int = 0
    lost: int = 0
    malformed: int = 0

    @property
    def total(self) -> int:
        return self.released + self.withheld + self.lost + self.malformed

    def __str__(self) -> str:
        return f"{self.released} {self.withheld} {self.lost} {self.malformed}"


# ---------------------------------------------------------------------------------------------------------------------
# The machine

MOST_SLOTS = 1_023
LEAST_DISTANCES = 1_024
LEAST_STEPS = 1_023
MOST_COUNTED = 65_535


def chain(ranges: list[Range], query: Range | None, start: int, end: int) -> tuple[Step, ...]:
    """The steps from `start` to `end`, which are linked. Released ranges close no ring, so there is one way only."""
    came = reached(ranges if query is None else [*ranges, query], start)
    steps: list[Step] = []
    here = end
    while (last := came[here]) is not None:
        before, r = last
        # The query is no released range: its ends were not linked before.
        steps.append(Step(r, forward=before == r.low, new=r == query))
        here = before
    return tuple(reversed(steps))


def judged(ranges: list[Range], query: Range, rule: Rule) -> Withheld | None:
    """The first pair that the query must not link, with the chain that would tell it, or None where all is well."""
    for i, j in newly_linked(ranges, query):
        if rule.protects(i, j):
            return Withheld(i, j, chain(ranges, query, i, j))
    return None


@dataclass
class Ledger:
    """The ranges that were released and joined, with their sums, and the four counts."""

    kind: Kind
    distances: int = LEAST_DISTANCES
    joined: dict[Range, Value] = field(default_factory=dict)
    counts: Counts = Counts()

    def query(self, low: int, high: int, slots: list[Slot], rule: Rule, steps: int = LEAST_STEPS) -> Answer:
        if self.counts.total >= MOST_COUNTED:
            return Refused(1)
        answer = self.answer(Range(low, high), slots, rule, steps)
        match answer:
            case Released():
                self.counts = replace(self.counts, released=self.counts.released + 1)
            case Withheld():
                self.counts = replace(self.counts, withheld=self.counts.withheld + 1)
            case Lost():
                self.counts = replace(self.counts, lost=self.counts.lost + 1)
            case Refused():
                self.counts = replace(self.counts, malformed=self.counts.malformed + 1)
        return answer

    def answer(self, query: Range, slots: list[Slot], rule: Rule, steps: int) -> Answer:
        if len(slots) > MOST_SLOTS:
            return Refused(2)
        if self.distances < LEAST_DISTANCES:
            return Refused(3)
        if steps < LEAST_STEPS:
            return Refused(4)
        if query.high > len(slots):
            return Refused(5)
        if query.low >= query.high:
            return Refused(6)
        ranges = list(self.joined)
        if linked(ranges, query.low, query.high):
            return Released(self.chain_sum(chain(ranges, None, query.low, query.high)))
        if (withheld := judged(ranges, query, rule)) is not None:
            return withheld
        total = self.kind.zero
        for place in range(query.low, query.high):
            if not slots[place].kept:
                return Lost(place)
            total = self.kind.add(total, slots[place].reading)
        self.joined[query] = total
        return Released(total)

    def chain_sum(self, steps: tuple[Step, ...]) -> Value:
        total = self.kind.zero
        for step in steps:
            value = self.joined[step.range]
            total = self.kind.add(total, value if step.forward else self.kind.inverse(value))
        return total


@dataclass
class Rehearsal:
    """Tries against a ledger's ranges. It works on a copy, so nothing is left behind when it ends."""

    ranges: list[Range]

    def attempt(self, low: int, high: int, slots: int, rule: Rule) -> Free | Withheld | Refused:
        query = Range(low, high)
        if slots > MOST_SLOTS:
            return Refused(2)
        if high > slots:
            return Refused(5)
        if low >= high:
            return Refused(6)
        # A range whose ends are linked already tells nothing new: it is free, and there is nothing to join.
        if linked(self.ranges, low, high):
            return Free()
        if (withheld := judged(self.ranges, query, rule)) is not None:
            return withheld
        self.ranges.append(query)
        return Free()
