"""A crate is dropped between two others and lifted again: what it meets on its way, and what a ray through all of them finds."""

from pungwelair import BEGIN, Refused, World, box_around


def cube(x, y):
    return box_around((x, y, 0), (x + 1, y + 1, 1))


with World() as world:
    floor = world.add(box_around((-9, -1, -9), (9, 0, 9)), fixed=True)
    left, right, crate = (world.add(cube(x, y)) for x, y in ((-1, 0), (1, 0), (0, 3)))
    names = {floor: "floor", left: "left", right: "right", crate: "crate"}
    for height in (3, 2, 1.5, 1, 0, 4):
        world.move(crate, cube(0, height))
        world.end_frame()
        for event, a, b in world.pair_changes():
            print(height, "begin" if event == BEGIN else "over", names[a], names[b])
    print("on the ray:", *(names[handle] for handle in world.ray_handles((300000, 32768, 32768), (-1, 0, 0))))
    world.remove(crate)
    try:
        world.remove(crate)
    except Refused as refusal:
        print("removed twice:", refusal)
