"""The machine driven directly, without scripts, by a simple text.

There is one order on a line, its parts separated by blanks, every number in base ten. An order that asks for something
is answered by one line; the others are answered by none. Kind and distances come before the first query or rehearsal,
which opens the ledger; rule, steps and store may be changed again between queries.

    case                    begins afresh: kind wh, 1,024 distances, 1,023 chain steps, agreed length 1, no spans,
                            no slots
    kind WORD               wh, toggles or dials
    distances COUNT         how many distances the ledger is opened on
    steps COUNT             how many chain steps each query is lent
    short K                 the agreed length of the rule of the queries (any 32-bit number)
    span LOW HIGH           one more listed span of that rule (any two 32-bit numbers, in any order)
    slot MARK NUMBER..      one more slot: its mark byte, then the numbers of its reading as held
    packed BYTE..           one more slot for each whole packed record of these bytes
    window START LENGTH     the store becomes this window of itself
    query LOW HIGH          a query
    repeat COUNT LOW HIGH   the same query COUNT times, at least once; the last one is answered
    rehearse                a rehearsal begins
    try SLOTS K LOW HIGH .. a try of the range LOW HIGH against its own slot count SLOTS and its own rule: agreed length
                            K, and as spans the pairs of numbers that follow
    end                     the rehearsal ends
    close                   the ledger is closed; only `case` may follow

A query is answered by one of

    sum NUMBER.. counts R W L M
    withheld I J chain SIGN LOW HIGH ORIGIN .. counts R W L M
    lost SLOT counts R W L M
    refused NUMBER counts R W L M

where each step of a chain has its four parts, ORIGIN `old` or `new`, and R W L M are the counts released, withheld,
lost and malformed after the query. A try is answered by `free`, `withheld I J` or `refused NUMBER`, and close by
`closed R W L M`.
"""

from __future__ import annotations

from dataclasses import dataclass, field

from machine import (
    KEPT_MARK,
    KINDS,
    LEAST_DISTANCES,
    LEAST_STEPS,
    WH,
    Answer,
    Free,
    Kind,
    Ledger,
    Lost,
    Range,
    Refused,
    Rehearsal,
    Released,
    Rule,
    Slot,
    Step,
    Withheld,
    unpack,
    window,
)


@dataclass
class Case:
    """One ledger of the direct format, with the store and the rule of its queries."""

    kind: Kind = WH
    distances: int = LEAST_DISTANCES
    steps: int = LEAST_STEPS
    agreed: int = 1
    spans: tuple[Range, ...] = ()
    slots: list[Slot] = field(default_factory=list)
    ledger: Ledger | None = None
    rehearsal: Rehearsal | None = None

    def opened(self) -> Ledger:
        if self.ledger is None:
            self.ledger = Ledger(self.kind, self.distances)
        return self.ledger

    def obey(self, order: str, parts: list[str]) -> str | None:
        """Does what a line says; the answer's line, if it has one."""
        if order == "kind":
            (word,) = parts
            self.kind = KINDS[word]
            return None
        numbers = [int(part) for part in parts]
        match order, numbers:
            case "distances", [count]:
                self.distances = count
            case "steps", [count]:
                self.steps = count
            case "short", [agreed]:
                self.agreed = agreed
            case "span", [low, high]:
                self.spans = (*self.spans, Range(low, high))
            case "slot", [mark, *held]:
                self.slots.append(Slot(mark == KEPT_MARK, self.kind.meaning(held)))
            case "packed", data:
                self.slots.extend(unpack(self.kind, bytes(data)))
            case "window", [start, length]:
                self.slots = window(self.slots, start, length)
            case "query", [low, high]:
                return self.query(1, low, high)
            case "repeat", [count, low, high]:
                return self.query(count, low, high)
            case "rehearse", []:
                self.rehearsal = Rehearsal(list(self.opened().joined))
            case "try", [slots, agreed, low, high, *ends]:
                return self.attempt(slots, agreed, low, high, ends)
            case "end", []:
                self.rehearsal = None
            case "close", []:
                return f"closed {self.opened().counts}"
            case _:
                raise ValueError(f"no such order: {order} {' '.join(parts)}")
        return None

    def query(self, count: int, low: int, high: int) -> str:
        assert self.rehearsal is None, "a rehearsal is open"
        ledger = self.opened()
        for _ in range(count):
            answer = ledger.query(low, high, self.slots, Rule(self.agreed, self.spans), self.steps)
        return f"{self.said(answer)} counts {ledger.counts}"

    def attempt(self, slots: int, agreed: int, low: int, high: int, ends: list[int]) -> str:
        assert self.rehearsal is not None, "no rehearsal is open"
        spans = tuple(Range(*pair) for pair in zip(ends[::2], ends[1::2], strict=True))
        match self.rehearsal.attempt(low, high, slots, Rule(agreed, spans)):
            case Free():
                return "free"
            case Withheld(i, j):
                return f"withheld {i} {j}"
            case Refused(number):
                return f"refused {number}"

    @staticmethod
    def said(answer: Answer) -> str:
        match answer:
            case Released(value):
                return f"sum {' '.join(map(str, value))}"
            case Withheld(i, j, steps):
                return f"withheld {i} {j} chain {' '.join(map(direct_step, steps))}"
            case Lost(slot):
                return f"lost {slot}"
            case Refused(number):
                return f"refused {number}"


def direct_step(step: Step) -> str:
    sign = "+" if step.forward else "-"
    return f"{sign} {step.range.low} {step.range.high} {'new' if step.new else 'old'}"


def run_direct(text: str) -> str:
    """The answers to a text of the direct format."""
    case = Case()
    answers: list[str] = []
    for line in text.splitlines():
        match line.split():
            case []:
                continue
            case ["case"]:
                case = Case()
            case [order, *parts]:
                answer = case.obey(order, parts)
                if answer is not None:
                    answers.append(answer)
    return "".join(f"{answer}\n" for answer in answers)
