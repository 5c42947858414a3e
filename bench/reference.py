#!/usr/bin/env python3
"""Plays a scene of version 2 as docs/SCENES.md has it, by testing all boxes pairwise in whole numbers and fractions.

    bench/reference.py < SCENE > REPORT

It shares no code with the program, so that a report is known from elsewhere. It reads scenes that nothing is refused of, and is
for some thousands of lines: a frame of 700 boxes takes it a tenth of a second.
"""
import sys
from dataclasses import dataclass, replace
from fractions import Fraction

STEP = 65536
EVERY = 0xFFFFFFFF


def raw(word):
    """The raw number nearest to a decimal text; no text of nine digits names the middle of two."""
    return round(Fraction(word) * STEP)


@dataclass(frozen=True)
class Box:
    handle: tuple
    lo: tuple
    hi: tuple
    groups: int
    sees: int
    owner: int
    fixed: bool


def meet(a, b):
    return all(a.lo[k] <= b.hi[k] and b.lo[k] <= a.hi[k] for k in range(3))


def may_pair(a, b):
    seen = a.groups & b.sees and b.groups & a.sees
    return bool(seen) and not (a.owner and a.owner == b.owner) and not (a.fixed and b.fixed)


def first_met(start, way, lo, hi, end):
    """The least fraction t from 0 to `end` (None: without end) at which start + t * way lies in lo..hi, or None."""
    first, last = Fraction(0), end
    for k in range(3):
        if way[k] == 0:
            if not lo[k] <= start[k] <= hi[k]:
                return None
            continue
        sides = sorted((Fraction(lo[k] - start[k], way[k]), Fraction(hi[k] - start[k], way[k])))
        first = max(first, sides[0])
        last = sides[1] if last is None else min(last, sides[1])
    return first if last is None or first <= last else None


def square(at, box):
    return sum(max(box.lo[k] - at[k], at[k] - box.hi[k], 0) ** 2 for k in range(3))


class World:
    def __init__(self):
        self.live, self.given, self.last, self.frames = {}, {}, [], 0

    def copy(self):
        other = World()
        other.live, other.given = dict(self.live), dict(self.given)
        other.last, other.frames = list(self.last), self.frames
        return other

    def find(self, word):
        slot, generation = (int(part) for part in word.split(":"))
        box = self.live.get(slot)
        return box if box and box.handle == (slot, generation) else None

    def listed(self, groups):
        return [box for _, box in sorted(self.live.items()) if box.groups & groups]

    def pairs(self):
        boxes = [box for _, box in sorted(self.live.items())]
        return [
            (a.handle, b.handle) for k, a in enumerate(boxes) for b in boxes[k + 1 :] if meet(a, b) and may_pair(a, b)
        ]


def name(handle):
    return f"{handle[0]}:{handle[1]}"


def found(word, boxes):
    return " ".join([word, str(len(boxes))] + [name(box.handle) for box in boxes])


def in_order(placed):
    return [box for place, _, box in sorted(((p, box.handle[0], box) for p, box in placed if p is not None), key=lambda e: e[:2])]


def asked_groups(words, count):
    return int(words[count], 16) if len(words) > count else EVERY


def add(world, words):
    words, fixed, owner = list(words), False, 0
    if words[-1] == "fixed":
        words.pop()
        fixed = True
    if len(words) > 2 and words[-2] == "owner":
        owner = int(words.pop())
        words.pop()
    slot = next(slot for slot in range(len(world.live) + 1) if slot not in world.live)
    handle = (slot, world.given.get(slot, 0))
    world.given[slot] = handle[1] + 1
    at = tuple(map(raw, words[1:7]))
    groups = int(words[7], 16) if len(words) > 7 else 1
    sees = int(words[8], 16) if len(words) > 8 else EVERY
    world.live[slot] = Box(handle, at[:3], at[3:], groups, sees, owner, fixed)
    return [f"add {name(handle)}"]


def frame(world):
    pairs = world.pairs()
    before, now = set(world.last), set(pairs)
    world.frames += 1
    lines = [f"frame {world.frames} {len(pairs)}"]
    lines += [f"{'stay' if pair in before else 'begin'} {name(pair[0])} {name(pair[1])}" for pair in pairs]
    lines += [f"over {name(pair[0])} {name(pair[1])}" for pair in world.last if pair not in now]
    world.last = pairs
    return lines


def ask(world, words):
    kind, numbers = words[0], {"box": 6, "point": 3, "ray": 6, "seg": 6, "cast": 9, "near": 3}[words[0]]
    by_entry = kind == "ray" and words[-1] == "entry"
    words = words[:-1] if by_entry else words
    at = tuple(map(raw, words[1 : 1 + numbers]))
    if kind == "near":
        boxes = world.listed(asked_groups(words, 5))
        return [found(kind, in_order([(square(at, box), box) for box in boxes])[: int(words[4])])]
    boxes = world.listed(asked_groups(words, 1 + numbers))
    if kind == "point":
        return [found(kind, [box for box in boxes if first_met(at, (0, 0, 0), box.lo, box.hi, None) is not None])]
    if kind == "box":
        region = Box((0, 0), at[:3], at[3:], 0, 0, 0, False)
        return [found(kind, [box for box in boxes if meet(region, box)])]
    if kind == "cast":
        # A moved box meets another if its lower corner comes into that one, grown downwards by the moved one's sides.
        sides = tuple(at[3 + k] - at[k] for k in range(3))
        placed = [
            (first_met(at[:3], at[6:], tuple(box.lo[k] - sides[k] for k in range(3)), box.hi, Fraction(1)), box)
            for box in boxes
        ]
        return [found(kind, in_order(placed))]
    way = at[3:] if kind == "ray" else tuple(at[3 + k] - at[k] for k in range(3))
    placed = [(first_met(at[:3], way, box.lo, box.hi, None if kind == "ray" else Fraction(1)), box) for box in boxes]
    if by_entry:
        return [found(kind, in_order(placed))]
    return [found(kind, [box for place, box in placed if place is not None])]


def lines_of(text):
    """The lines of a scene; what stands behind the last line feed is one too, if there is anything."""
    lines = text.split("\n")
    return lines if lines[-1] else lines[:-1]


def play(lines):
    world, marks, number = World(), [], 0
    for number, line in enumerate(lines, 1):
        words = [word for word in line.removesuffix("\r").split("#")[0].replace("\t", " ").split(" ") if word]
        if not words or words[0] == "scene":
            continue
        match words[0]:
            case "add":
                yield from add(world, words)
            case "move" | "mask" | "remove":
                box = world.find(words[1])
                if not box:
                    yield "stale " + ":".join(str(int(part)) for part in words[1].split(":"))
                elif words[0] == "remove":
                    del world.live[box.handle[0]]
                elif words[0] == "mask":
                    world.live[box.handle[0]] = replace(box, groups=int(words[2], 16), sees=int(words[3], 16))
                else:
                    at = tuple(map(raw, words[2:]))
                    world.live[box.handle[0]] = replace(box, lo=at[:3], hi=at[3:])
            case "frame":
                yield from frame(world)
            case "mark":
                if len(marks) < 64:
                    marks.append(world.copy())
                    yield f"mark {len(marks)}"
                else:
                    yield "nomark 64"
            case "back":
                if marks:
                    world = marks.pop()
                    yield f"back {len(marks)}"
                else:
                    yield "nomark 0"
            case _:
                yield from ask(world, words)
    yield f"end {number} {world.frames} {len(world.live)}"


if __name__ == "__main__":
    sys.stdout.write("".join(line + "\n" for line in play(lines_of(sys.stdin.buffer.read().decode("latin-1")))))
