"""Scenes of version 2 with every command of it in random order, for the scripts beside this file."""
import random

# How often each line comes among the others.
LINES = {
    "add": 14, "move": 34, "mask": 4, "remove": 7, "frame": 6, "box": 4, "point": 4, "ray": 4, "ray entry": 5, "seg": 4,
    "cast": 7, "near": 7, "mark": 4, "back": 3, "stale": 1,
}
LEAST, GREATEST = -(2**31), 2**31 - 1
STEP = 65536


def number(raw):
    """Five digits behind the point name each raw number."""
    return f"{raw / STEP:.5f}"


def numbers(raws):
    return " ".join(map(number, raws))


class Maker:
    """What a scene's lines have come to so far: who lives under which handle, now and at each mark."""

    def __init__(self, seed, boxes):
        self.dice = random.Random(seed)
        self.boxes = boxes
        # A small room and whole units make ties, touching faces and boxes alike; a large one and raw steps make neither.
        self.room = self.dice.choice([2, 2, 4, 4, 12, 60, 600]) * STEP
        self.grain = self.dice.choice([1, 1, STEP // 2, STEP])
        self.live = {}
        self.given = {}
        self.marks = []

    def coordinate(self):
        if self.dice.random() < 0.01:
            return self.dice.choice([LEAST, GREATEST])
        return self.dice.randint(-self.room, self.room) // self.grain * self.grain

    def point(self):
        return [self.coordinate() for _ in range(3)]

    def body(self):
        low = self.point()
        side = self.dice.choice([0, 1, 2, 2, 2, 8]) * STEP
        sides = [self.dice.randint(0, side) // self.grain * self.grain for _ in range(3)]
        return low + [min(part + by, GREATEST) for part, by in zip(low, sides)]

    def mask(self):
        return f"{self.dice.choice([0, 1, 2, 4, 16, 255, 4294967295, self.dice.getrandbits(32)]):x}"

    def asked(self):
        """The groups of a query, all of them more often than not."""
        return "" if self.dice.random() < 0.6 else " " + self.mask()

    def handle(self):
        slot = self.dice.choice(list(self.live))
        return slot, f"{slot}:{self.live[slot]}"

    def add(self):
        slot = next(slot for slot in range(len(self.live) + 1) if slot not in self.live)
        self.live[slot] = self.given.get(slot, 0)
        self.given[slot] = self.live[slot] + 1
        line = f"add {numbers(self.body())}"
        for _ in range(self.dice.choice([0, 0, 1, 2])):
            line += " " + self.mask()
        if self.dice.random() < 0.4:
            line += f" owner {self.dice.choice([0, 1, 2, 3, 4294967295])}"
        if self.dice.random() < 0.3:
            line += " fixed"
        return line

    def remove(self):
        slot, handle = self.handle()
        del self.live[slot]
        return f"remove {handle}"

    def mark(self):
        if len(self.marks) < 64:
            self.marks.append((dict(self.live), dict(self.given)))
        return "mark"

    def back(self):
        if self.marks:
            self.live, self.given = self.marks.pop()
        return "back"

    def line(self):
        kind = self.dice.choices(list(LINES), LINES.values())[0]
        if kind == "add" and len(self.live) >= self.boxes:
            kind = "move"
        if kind in ("move", "mask", "remove") and not self.live:
            kind = "add"
        match kind:
            case "add" | "remove" | "mark" | "back":
                return getattr(self, kind)()
            case "move":
                return f"move {self.handle()[1]} {numbers(self.body())}"
            case "mask":
                return f"mask {self.handle()[1]} {self.mask()} {self.mask()}"
            case "stale":
                return f"move {self.dice.randint(0, 20)}:{self.dice.randint(0, 3) + 1000} {numbers(self.body())}"
            case "frame":
                return "frame"
            case "box":
                return f"box {numbers(self.body())}{self.asked()}"
            case "point":
                return f"point {numbers(self.point())}{self.asked()}"
            case "seg":
                return f"seg {numbers(self.point() + self.point())}{self.asked()}"
            case "ray" | "ray entry":
                way = [self.dice.choice([0, part]) for part in self.point()]
                return f"ray {numbers(self.point() + way)}{self.asked()}{kind[3:]}"
            case "cast":
                way = [self.dice.choice([0, part]) for part in self.point()]
                return f"cast {numbers(self.body() + way)}{self.asked()}"
            case "near":
                return f"near {numbers(self.point())} {self.dice.choice([1, 1, 2, 5, 40, 8192])}{self.asked()}"


def made_scene(seed, boxes, lines):
    """A scene of at most so many boxes at once and of so many lines behind its header, as bytes. It is never refused."""
    maker = Maker(seed, boxes)
    text = ["scene 2"] + [maker.line() for _ in range(lines)] + ["frame"]
    return ("\n".join(text) + "\n").encode()
