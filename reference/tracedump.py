#!/usr/bin/env python3
"""An independent reading of the flash bytes of a trace, and the trace that the repository ships.

    python3 reference/tracedump.py KIND [LOW..HIGH ..] < BYTES    prints what `tracedump` must print
    python3 reference/tracedump.py --make NAME > BYTES             a trace that the repository ships: day, relays or dials

It shares no code with the library: it was written from docs/FORMATS.md alone, with Python's own integers.
"""
import re
import sys

LIMIT = 1_048_576
LARGEST = 2**64 - 1


class Wh:
    word, size = "wh", 4

    @staticmethod
    def read(raw):
        return (int.from_bytes(raw, "little"),)

    @staticmethod
    def add(a, b):
        return ((a[0] + b[0]) % 2**32,)

    @staticmethod
    def raw(v):
        return v[0].to_bytes(4, "little")


class Toggles:
    word, size = "toggles", 2

    @staticmethod
    def read(raw):
        return (int.from_bytes(raw, "little"),)

    @staticmethod
    def add(a, b):
        return (a[0] ^ b[0],)

    @staticmethod
    def raw(v):
        return v[0].to_bytes(2, "little")


class Dials:
    word, size = "dials", 4

    @staticmethod
    def read(raw):
        litres, starts = raw[0] + 256 * raw[1], raw[2] + 256 * raw[3]
        return (litres, starts) if litres < 10_000 and starts < 1_000 else None

    @staticmethod
    def add(a, b):
        return ((a[0] + b[0]) % 10_000, (a[1] + b[1]) % 1_000)

    @staticmethod
    def raw(v):
        return bytes([v[0] % 256, v[0] // 256, v[1] % 256, v[1] // 256])


KINDS = {k.word: k for k in (Wh, Toggles, Dials)}


def slots_of(kind, data):
    """The slots: a value where kept, None where lost."""
    width = 1 + kind.size
    out = []
    for i in range(len(data) // width):
        row = data[i * width:(i + 1) * width]
        value = kind.read(row[1:])
        out.append(value if row[0] == 1 and value is not None else None)
    return out


def text(value):
    return " ".join(str(n) for n in value)


def total(kind, slots, low, high):
    if high > len(slots):
        return "refused 5: ends beyond the last slot"
    if low >= high:
        return "refused 6: has no slot"
    for i in range(low, high):
        if slots[i] is None:
            return f"lost slot {i}"
    value = slots[low]
    for v in slots[low + 1:high]:
        value = kind.add(value, v)
    return "sum " + text(value)


def number(word):
    """A decimal number with an optional plus, or None."""
    value = int(word) if re.fullmatch(r"\+?[0-9]+", word) else None
    return value if value is not None and value <= LARGEST else None


def stretch(word):
    low, dots, high = word.partition("..")
    pair = (number(low), number(high))
    return pair if dots and None not in pair else None


def report(kind, data, words):
    slots = slots_of(kind, data)
    width = 1 + kind.size
    yield f"trace {kind.word}: {len(data)} bytes, {len(slots)} slots, {len(data) % width} bytes left over"
    for i, v in enumerate(slots):
        yield f"slot {i}: " + ("lost" if v is None else text(v))
    yield f"as a list: {len(slots)} slots, each as packed"
    start = len(slots) // 4
    yield f"through a window from slot {start}: {len(slots[start:start + len(slots) // 2])} slots, each as packed"
    for word in words:
        pair = stretch(word)
        if pair is None:
            yield f"stretch {word}: refused: not of the form LOW..HIGH"
            continue
        low, high = pair
        yield f"stretch {low}..{high}: " + total(kind, slots, low, high)
        yield "  as a list: " + total(kind, slots, low, high)
        length = max(high - low, 0)
        yield "  through a window: " + total(kind, slots[low:low + length], 0, length)
    kept = [i for i, v in enumerate(slots) if v is not None]
    same = sum(bytes([1]) + kind.raw(slots[i]) == data[i * width:(i + 1) * width] for i in kept)
    lost = len(slots) - len(kept)
    yield f"packed again: {same} of {len(kept)} kept records the same, {lost} of {lost} lost records zeros"


def make_day():
    """A heating day in watt-hours: a night set-back, a morning and an evening peak, four slots lost in two ways."""
    rows = []
    for i in range(96):
        hour = i // 4
        base = 60 if hour < 6 else 450 if hour < 9 else 180 if hour < 17 else 520 if hour < 22 else 90
        value = base + (i * 37) % 41
        if i == 50:
            value = 2**32 - 1          # the meter's largest reading
        mark = {13: 0, 41: 2, 42: 255, 95: 0}.get(i, 1)
        rows.append(bytes([mark]) + value.to_bytes(4, "little"))
    return b"".join(rows) + b"\x01\x05"  # two bytes left over


def make_relays():
    """Twelve masks of relays, three of them lost by their marks, and two bytes left over."""
    masks = [1, 2, 3, 1, 0x8000, 0xffff, 0, 0x0180, 0x00ff, 0xff00, 0x5555, 0xaaaa]
    marks = {3: 2, 8: 0, 11: 254}
    return b"".join(bytes([marks.get(i, 1)]) + m.to_bytes(2, "little") for i, m in enumerate(masks)) + b"\x01\x00"


def make_dials():
    """Ten pairs of litres and starts: at and beyond each dial's end, and one lost by its mark; no byte left over."""
    pairs = [(9999, 999), (1, 1), (0, 0), (12, 3), (10000, 0), (0, 1000), (9999, 999), (256, 255), (5, 7), (65535, 65535)]
    marks = {7: 2}
    return b"".join(
        bytes([marks.get(i, 1)]) + l.to_bytes(2, "little") + s.to_bytes(2, "little") for i, (l, s) in enumerate(pairs))


TRACES = {"day": make_day, "relays": make_relays, "dials": make_dials}


def refusal(words, data):
    """Why nothing is shown, or None."""
    if not words:
        return "no kind: write tracedump KIND [LOW..HIGH ..], KIND being wh, toggles or dials"
    if words[0] not in KINDS:
        return "unknown kind: write wh, toggles or dials"
    if not data:
        return "no input: the flash bytes of a trace come on standard input"
    if len(data) > LIMIT:
        return "too long: a trace has at most 1048576 bytes"
    return None


def main(argv):
    if argv[:1] == ["--make"]:
        sys.stdout.buffer.write(TRACES[argv[1]]())
        return 0
    data = sys.stdin.buffer.read()
    why = refusal(argv, data)
    if why is not None:
        print("Error: " + why, file=sys.stderr)
        return 1
    for line in report(KINDS[argv[0]], data, argv[1:]):
        print(line)
    return 0


if __name__ == "__main__":
    sys.exit(main(sys.argv[1:]))
