#!/usr/bin/env python3
"""Cases for the program `ledgercases`, what it must answer to them, and a comparison of many.

    ledgercases.py < CASES                       what the program must print
    ledgercases.py make COUNT [SEED]             the known situations, then COUNT random texts of cases
    ledgercases.py compare COUNT SEED COMMAND .. runs the command on COUNT random texts; stops at the first that differs

The cases are those of the direct format (direct.py describes it) without rehearsals. A case ends where it is closed,
where the next one begins, or with the text. A line that is no order of that format is answered by `unread: LINE`.
"""

from __future__ import annotations

import subprocess
import sys

from direct import Case
from machine import KINDS
from random_cases import make_cases

REHEARSING = ("rehearse", "try", "end")
PARTS = {"distances": 1, "steps": 1, "short": 1, "span": 2, "window": 2, "query": 2, "repeat": 3}

SITUATIONS = """\
case
short 3
{nine}query 0 2
query 0 3
query 10 10
close
case
short 1
{nine}query 0 1
close
case
short 1
span 2 4
{nine}query 0 2
query 0 4
close
case
kind toggles
short 1
slot 1 1
slot 1 2
slot 1 3
slot 1 1
query 0 3
query 0 4
query 3 4
close
case
query 0 1
query 0 0
close
case
kind dials
slot 1 9999 999
slot 1 1 1
slot 1 65535 65535
slot 2 5 5
query 0 2
query 2 3
query 0 3
query 3 4
query 1 2
close
case
slot 1 4294967295
slot 1 1
packed 1 5 0 0 0 2 5 0 0 0 1 7
query 0 2
query 2 3
query 3 4
query 0 4
close
case
kind litres
slot 1
slot 1 2 3
slot 256 1
slot 1 1
query 0
query 0 -1
query 0 4294967296
question 0 1
repeat 0 0 1
packed 256
query 0 1
close
query 0 1
""".format(nine="".join(f"slot 1 {10 * slot + 3}\n" for slot in range(9)))


def is_order(kind: str, order: str, parts: list[str]) -> bool:
    """Whether a line is an order that the program takes in a case of this kind."""
    if order == "kind":
        return len(parts) == 1 and parts[0] in KINDS
    if not all(part.isascii() and part.isdigit() and int(part) < 1 << 32 for part in parts):
        return False
    numbers = [int(part) for part in parts]
    match order:
        case "slot":
            return len(parts) == 1 + len(KINDS[kind].sizes) and numbers[0] < 256
        case "packed":
            return all(number < 256 for number in numbers)
        case "repeat":
            return len(parts) == 3 and numbers[0] > 0
        case _:
            return PARTS.get(order) == len(parts)


def answers(text: str) -> str:
    case = Case()
    lines: list[str] = []
    for line in text.splitlines():
        match line.split():
            case []:
                continue
            case ["case"]:
                case = Case()
            case ["close"]:
                lines.append(f"closed {case.opened().counts}")
                case = Case()
            case [order, *parts]:
                if not is_order(case.kind.word, order, parts):
                    lines.append(f"unread: {line}")
                elif (answer := case.obey(order, parts)) is not None:
                    lines.append(answer)
    return "".join(f"{line}\n" for line in lines)


def made(seed: int, number: int) -> str:
    """A random text of cases, with its rehearsals left out."""
    lines = make_cases(seed, number).decode("ascii").splitlines()
    return "".join(f"{line}\n" for line in lines if line.split()[0] not in REHEARSING)


def compare(count: int, seed: int, command: list[str]) -> int:
    queries = 0
    for number in range(count):
        text = made(seed, number)
        ran = subprocess.run(command, input=text, capture_output=True, check=False, text=True)
        came, wanted = ran.stdout.splitlines(), answers(text).splitlines()
        if ran.returncode != 0 or came != wanted:
            at = next((at for at, (x, y) in enumerate(zip(came, wanted)) if x != y), min(len(came), len(wanted)))
            print(f"number {number} of seed {seed} differs at line {at + 1} (status {ran.returncode})")
            print(f"  wanted: {wanted[at : at + 1]}\n  came:   {came[at : at + 1]}")
            return 1
        queries += sum(not line.startswith("closed") for line in wanted)
    print(f"{count} texts alike, {queries} answers")
    return 0


def main(arguments: list[str]) -> int:
    match arguments:
        case []:
            sys.stdout.write(answers(sys.stdin.read()))
        case ["make", count, *seed]:
            sys.stdout.write(SITUATIONS)
            for number in range(int(count)):
                sys.stdout.write(made(int(seed[0]) if seed else 1, number))
        case ["compare", count, seed, *command] if command:
            return compare(int(count), int(seed), command)
        case _:
            print(__doc__, file=sys.stderr)
            return 2
    return 0


if __name__ == "__main__":
    sys.exit(main(sys.argv[1:]))
