/* Sixty crates fall onto a floor of two plates and pile up, one plate is taken away, and what stood on it falls further. Each tick
 * asks by a cast how far each crate falls, moves those that do, ends the frame, and prints which pairs began and which are over. */
#include "pungwelair.h"
#include <stdio.h>
#include <stdlib.h>

enum { UNIT = 65536, PLATES = 3, COLUMNS = 20, LAYERS = 3, CRATES = COLUMNS * LAYERS, BODIES = PLATES + CRATES };
enum { TICKS = 24, GRAVITY = UNIT / 8, HATCH_OPENS = 12, ROOM = 512 };
enum { GROUND = 1, CRATE = 2, DUST = 4 };

/* What the program knows of a body stands under its slot. */
static pw_handle handles[BODIES];
static int32_t speed[BODIES];
static uint32_t stopped_by[BODIES];

static void must(pw_status status) {
    if (status != PW_OK) {
        fprintf(stderr, "status %u\n", status);
        exit(1);
    }
}

static void add(pw_world *world, pw_box body, pw_new how) {
    pw_handle handle;
    size_t done;
    must(pw_add(world, &body, 1, &how, &handle, 1, &done));
    handles[handle.slot] = handle;
}

static pw_box box_at(int32_t x, int32_t y, int32_t z, int32_t width, int32_t height) {
    pw_box body = {{x, y, z}, {x + width, y + height, z + width}};
    return body;
}

/* Two plates that touch, fixed so that they are no pair, and a floor below them. */
static void add_plates(pw_world *world) {
    pw_new how = {{GROUND, GROUND | CRATE | DUST}, {0, 1}};
    add(world, box_at(0, -UNIT, 0, 16 * UNIT, UNIT), how);
    add(world, box_at(16 * UNIT, -UNIT, 0, 16 * UNIT, UNIT), how);
    add(world, box_at(0, -5 * UNIT, 0, 32 * UNIT, UNIT), how);
}

/* The two lower crates of a column have one owner, so they are no pair. Each fourth column has a cloud of dust on top, which only
 * the ground stops and sees. */
static void add_crates(pw_world *world) {
    for (int32_t layer = 0; layer < LAYERS; layer++)
        for (int32_t column = 0; column < COLUMNS; column++) {
            int dust = layer == LAYERS - 1 && column % 4 == 0;
            pw_new how = {{CRATE, GROUND | CRATE}, {0, 0}};
            if (dust) how.masks = (pw_masks){DUST, GROUND};
            if (layer < LAYERS - 1) how.group.owner = (uint32_t)column + 1;
            int32_t x = column / 2 * 3 * UNIT, y = (layer * 2 + 1) * UNIT + column * UNIT / 4, z = (2 + column % 2 * 4) * UNIT;
            add(world, box_at(x, y, z, UNIT, UNIT), how);
            stopped_by[PLATES + layer * COLUMNS + column] = dust ? GROUND : GROUND | CRATE;
        }
}

/* How far a body falls in a tick: down to the first one below it that stops it. A body that rests on this one is met too, and
 * isn't below. */
static int32_t fall_of(pw_world *world, uint32_t slot, const pw_box *body) {
    pw_cast cast = {stopped_by[slot], *body, {0, -speed[slot], 0}};
    pw_handle met[BODIES];
    size_t count;
    must(pw_cast_hits(world, &cast, met, BODIES, &count));
    for (size_t k = 0; k < count; k++) {
        pw_live other;
        must(pw_get(world, met[k], &other));
        if (other.body.hi.y <= body->lo.y) {
            speed[slot] = 0;
            return body->lo.y - other.body.hi.y;
        }
    }
    return speed[slot];
}

/* All falls are asked for before any body moves, so the order of bodies doesn't matter. */
static void let_fall(pw_world *world) {
    pw_handle moved[CRATES];
    pw_box to[CRATES];
    size_t count = 0, done;
    for (uint32_t slot = PLATES; slot < BODIES; slot++) {
        pw_live live;
        must(pw_get(world, handles[slot], &live));
        speed[slot] += GRAVITY;
        int32_t fall = fall_of(world, slot, &live.body);
        if (fall == 0) continue;
        live.body.lo.y -= fall;
        live.body.hi.y -= fall;
        moved[count] = handles[slot];
        to[count++] = live.body;
    }
    must(pw_move(world, moved, count, to, count, &done));
}

static void print_changes(pw_world *world, int tick) {
    pw_counts counts;
    pw_told changes[ROOM];
    size_t copied;
    must(pw_update(world, &counts));
    must(pw_changes(world, 0, changes, ROOM, &copied));
    printf("tick %d: %zu pairs\n", tick, counts.pairs);
    for (size_t k = 0; k < copied; k++)
        printf("  %s %u %u\n", changes[k].event == PW_BEGIN ? "begin" : "over", changes[k].pair.a.slot, changes[k].pair.b.slot);
}

int main(void) {
    pw_world world = PW_WORLD_INIT;
    must(pw_open(&world, PW_TREE));
    add_plates(&world);
    add_crates(&world);
    for (int tick = 1; tick <= TICKS; tick++) {
        size_t done;
        if (tick == HATCH_OPENS) must(pw_remove(&world, &handles[1], 1, &done));
        let_fall(&world);
        print_changes(&world, tick);
    }
    /* The dust settles: from now on it sees nothing, and nothing sees it. */
    for (uint32_t slot = PLATES; slot < BODIES; slot++)
        if (stopped_by[slot] == GROUND) must(pw_mask(&world, handles[slot], (pw_masks){0, 0}));
    print_changes(&world, TICKS + 1);
    must(pw_close(&world));
    return 0;
}
