#!/usr/bin/env python3
"""Makes scenes/deep.scene, for what short scenes don't reach: marks 64 deep, ways back over more than a thousand changes, and
`near`, `cast`, `entry` and boxes with hundreds of hits. A call that gives up if it is asked for much is seen by it.

    bench/deep_scene.py > scenes/deep.scene
    bench/reference.py < scenes/deep.scene > scenes/deep.report
"""
import random
import sys

sys.dont_write_bytecode = True
from made_scenes import STEP, numbers

DICE = random.Random(20)
ROOM = 24 * STEP


class Deep:
    def __init__(self):
        self.lines, self.live, self.given, self.marks = ["scene 2"], {}, {}, []

    def put(self, line):
        self.lines.append(line)

    def near_point(self):
        return [DICE.randint(-ROOM, ROOM) for _ in range(3)]

    def body(self, most=7 * STEP):
        low = self.near_point()
        return low + [part + DICE.randint(0, most) for part in low]

    def add(self, body, tail=""):
        slot = next(slot for slot in range(len(self.live) + 1) if slot not in self.live)
        self.live[slot] = self.given.get(slot, 0)
        self.given[slot] = self.live[slot] + 1
        self.put(f"add {numbers(body)}{tail}")

    def handle(self):
        slot = DICE.choice(list(self.live))
        return slot, f"{slot}:{self.live[slot]}"

    def move(self):
        self.put(f"move {self.handle()[1]} {numbers(self.body())}")

    def change(self):
        """One change of any kind."""
        kind = DICE.random()
        if kind < 0.6:
            self.move()
        elif kind < 0.75:
            self.put(f"mask {self.handle()[1]} {DICE.choice([1, 2, 3, 4]):x} {DICE.choice([1, 3, 7, 255]):x}")
        elif kind < 0.87:
            slot, handle = self.handle()
            del self.live[slot]
            self.put(f"remove {handle}")
        else:
            self.add(self.body(), DICE.choice(["", " 2", " 3 7", " owner 5", " fixed", " 1 ff owner 9 fixed"]))

    def mark(self):
        if len(self.marks) < 64:
            self.marks.append((dict(self.live), dict(self.given)))
        self.put("mark")

    def back(self):
        if self.marks:
            self.live, self.given = self.marks.pop()
        self.put("back")

    def ask_much(self):
        """Queries with hundreds of hits: along the row of plates, and over the whole room."""
        far = 30 * STEP
        self.put(f"ray {numbers([-far, 0, 0, 1, 0, 0])} entry")
        self.put(f"ray {numbers([far, 7, 5, -3, 0, 0])} 7 entry")
        self.put(f"ray {numbers([0, 0, 0, 5, 1, 0])}")
        self.put(f"seg {numbers([-far, 0, 0, far, 1, 1])}")
        self.put(f"cast {numbers([-far, -STEP, -STEP, -far + STEP, STEP, STEP, 2 * far, 0, 0])}")
        self.put(f"cast {numbers([far, far, far, far + STEP, far + STEP, far + STEP, -2 * far, -2 * far + 3, -2 * far + 9])} 1")
        self.put(f"near {numbers(self.near_point())} 300")
        self.put(f"near {numbers(self.near_point())} {DICE.choice([1, 8, 64])} {DICE.choice([1, 2, 7]):x}")
        self.put(f"box {numbers([-far, -far, -far, far, far, far])} 3")
        self.put(f"point {numbers(self.near_point())}")

    def text(self):
        # A row of thin plates across a line, of which a ray and a cast meet each, and a crowd around it.
        for place in range(300):
            at = (place - 150) * STEP // 8
            self.add([at, -STEP, -STEP, at + STEP // 16, STEP, STEP], " 4 1 fixed" if place % 3 else " 2 1 fixed")
        for _ in range(320):
            self.add(self.body(6 * STEP), DICE.choice(["", " 1 7", " 2 7", " 3 3 owner 7"]))
        self.put("frame")
        self.ask_much()
        # One mark with more than a thousand changes behind it, among them a frame.
        self.mark()
        for count in range(1200):
            self.change()
            if count == 600:
                self.put("frame")
        self.put("near 0 0 0 8192")
        self.back()
        self.put("frame")
        # Marks to the greatest depth and beyond, with changes, queries and frames between them, and all the way back.
        for depth in range(66):
            self.mark()
            for _ in range(DICE.choice([0, 1, 12, 24])):
                self.change()
            if depth % 9 == 4:
                self.put("frame")
            if depth % 16 == 9:
                self.ask_much()
        for depth in range(65):
            self.back()
            if depth % 9 == 6:
                self.put("frame")
            if depth % 16 == 5:
                self.ask_much()
            if depth % 4 == 3:
                self.move()
        # Half of all boxes go, and their slots are given again.
        for _ in range(260):
            slot, handle = self.handle()
            del self.live[slot]
            self.put(f"remove {handle}")
        self.put("frame")
        for _ in range(200):
            self.add(self.body())
        self.put("frame")
        self.ask_much()
        return "".join(line + "\n" for line in self.lines)


if __name__ == "__main__":
    print(Deep().text(), end="")
