/* Each call with each wrong argument that it can be given: its status, its counts, and that all else stays. */
#include "expect.h"
#include "pungwelair.h"
#include <math.h>
#include <stdlib.h>

enum { BOXES = 3, ROOM = 8 };

static pw_world world = PW_WORLD_INIT;
static pw_reader reader = PW_READER_INIT;
static pw_handle handles[BOXES];

/* Boxes 0 and 1 meet, and box 2 is alone. */
static const pw_box boxes[BOXES] = {{{0, 0, 0}, {9, 9, 9}}, {{9, 0, 0}, {20, 9, 9}}, {{50, 50, 50}, {60, 60, 60}}};
static const pw_point origin = {0, 0, 0};

/* All that a world tells of itself. */
struct view {
    uint64_t info[6];
    pw_live live[BOXES];
    pw_pair pairs[ROOM];
    pw_told events[ROOM], changes[ROOM];
    size_t pair_count, event_count, change_count;
};

static void look(struct view *view) {
    pw_world_info info;
    memset(view, 0, sizeof *view);
    EXPECT(pw_info(&world, &info) == PW_OK);
    uint64_t fields[6] = {info.structure, info.spent, info.boxes, info.frames, info.marks, info.exchanges};
    memcpy(view->info, fields, sizeof fields);
    for (int k = 0; k < BOXES; k++) EXPECT(pw_get(&world, handles[k], &view->live[k]) == PW_OK);
    EXPECT(pw_pairs(&world, 0, view->pairs, ROOM, &view->pair_count) == PW_OK);
    EXPECT(pw_events(&world, 0, view->events, ROOM, &view->event_count) == PW_OK);
    EXPECT(pw_changes(&world, 0, view->changes, ROOM, &view->change_count) == PW_OK);
}

/* What leaves the world as it was. */
#define STAYS(...)                                      \
    do {                                                \
        struct view before, after;                      \
        look(&before);                                  \
        __VA_ARGS__;                                    \
        look(&after);                                   \
        EXPECT(!memcmp(&before, &after, sizeof after)); \
    } while (0)

/* A call that is refused so. */
#define REFUSED(call, wanted) STAYS(EXPECT((call) == (wanted)))

/* A call that tells a count of 0, and leaves the room for answers as it was. */
#define EMPTY(call, wanted, count, out)                     \
    do {                                                    \
        memset(out, FILL, sizeof out);                      \
        (count) = 99;                                       \
        EXPECT((call) == (wanted));                         \
        EXPECT((count) == 0 && is_filled(out, sizeof out)); \
    } while (0)

static pw_box inverted_on(int axis) {
    pw_box body = {{0, 0, 0}, {0, 0, 0}};
    int32_t *low[3] = {&body.lo.x, &body.lo.y, &body.lo.z};
    *low[axis] = 1;
    return body;
}

/* Each question, of the closed world, and of the reader, which isn't open or reads no world. */
#define CLOSED_TO(call, count, out, ...)                                             \
    do {                                                                             \
        EMPTY(pw_##call(&world, __VA_ARGS__), PW_CLOSED, count, out);                \
        EMPTY(pw_reader_##call(&reader, __VA_ARGS__), PW_CLOSED, count, out);        \
    } while (0)

static void closed_to_questions(void) {
    pw_handle out[ROOM], none = {0, 0};
    pw_hit hit[ROOM];
    pw_square square[1];
    size_t ends[ROOM], count;
    pw_box inverted_box = inverted_on(1);
    pw_query query = {PW_POINT, ~0u, origin, origin};
    pw_ray ray = {~0u, origin, origin};
    pw_cast cast = {~0u, boxes[0], origin}, inverted = {~0u, inverted_box, origin};
    pw_near near_to = {~0u, 1, origin};
    pw_near_box near_box = {~0u, 1, boxes[0], {0, 0}}, near_none = {~0u, 1, inverted_box, {0, 0}};
    CLOSED_TO(hits, count, out, &query, out, ROOM, &count);
    CLOSED_TO(ray_hits, count, out, &ray, out, ROOM, &count);
    CLOSED_TO(cast_hits, count, out, &cast, out, ROOM, &count);
    CLOSED_TO(nearest, count, out, &near_to, out, ROOM, &count);
    CLOSED_TO(nearest_box, count, out, &near_box, out, ROOM, &count);
    CLOSED_TO(nearest_box, count, out, &near_none, out, ROOM, &count);
    CLOSED_TO(ray_first, count, hit, &ray, hit, &count);
    CLOSED_TO(cast_first, count, hit, &cast, hit, &count);
    CLOSED_TO(ray_meets, count, hit, &ray, none, hit, &count);
    CLOSED_TO(cast_meets, count, hit, &cast, none, hit, &count);
    CLOSED_TO(cast_meets, count, hit, &inverted, none, hit, &count);
    CLOSED_TO(ray_first_each, count, hit, &ray, 1, hit, ROOM, &count);
    CLOSED_TO(ray_first_each, count, hit, &ray, 1, hit, 0, &count);
    CLOSED_TO(cast_first_each, count, hit, &inverted, 1, hit, ROOM, &count);
    CLOSED_TO(cast_first_each, count, hit, &cast, 0, hit, ROOM, &count);
    memset(ends, FILL, sizeof ends);
    CLOSED_TO(hits_each, count, out, &query, 1, out, ROOM, ends, ROOM, &count);
    CLOSED_TO(hits_each, count, out, &query, 1, out, ROOM, ends, 0, &count);
    EXPECT(is_filled(ends, sizeof ends));
    memset(square, FILL, sizeof square);
    EXPECT(pw_square_to(&world, &origin, none, square) == PW_CLOSED && pw_reader_square_to(&reader, &origin, none, square) == PW_CLOSED);
    EXPECT(pw_square_apart(&world, boxes, none, square) == PW_CLOSED && pw_reader_square_apart(&reader, boxes, none, square) == PW_CLOSED);
    EXPECT(pw_square_apart(&world, &inverted_box, none, square) == PW_CLOSED);
    EXPECT(pw_reader_square_apart(&reader, &inverted_box, none, square) == PW_CLOSED && is_filled(square, sizeof square));
}

/* What is read, by the same. */
static void closed_to_readings(void) {
    pw_handle handle[1], none = {0, 0};
    pw_pair pairs[ROOM];
    pw_told events[ROOM];
    pw_live live[1];
    pw_world_info info[1];
    size_t count;
    CLOSED_TO(pairs, count, pairs, 0, pairs, ROOM, &count);
    CLOSED_TO(events, count, events, 0, events, ROOM, &count);
    CLOSED_TO(changes, count, events, 0, events, ROOM, &count);
    memset(live, FILL, sizeof live);
    EXPECT(pw_get(&world, none, live) == PW_CLOSED && pw_reader_get(&reader, none, live) == PW_CLOSED && is_filled(live, sizeof live));
    memset(handle, FILL, sizeof handle);
    EXPECT(pw_at(&world, 0, handle, live) == PW_CLOSED && pw_reader_at(&reader, 0, handle, live) == PW_CLOSED);
    EXPECT(is_filled(handle, sizeof handle) && is_filled(live, sizeof live));
    memset(info, FILL, sizeof info);
    EXPECT(pw_info(&world, info) == PW_CLOSED && pw_reader_info(&reader, info) == PW_CLOSED && is_filled(info, sizeof info));
}

static void closed_world(void) {
    pw_new how = pw_seen_by_all();
    pw_handle out[ROOM], none = {0, 0};
    pw_pair pairs[ROOM];
    pw_ray ray = {~0u, origin, origin};
    pw_counts counts = {99, 99, 99};
    size_t count;
    EXPECT(pw_close(&world) == PW_CLOSED);
    EXPECT(pw_open(&world, 5) == PW_ARGUMENT);
    EXPECT(pw_open(&world, ~0u) == PW_ARGUMENT);
    EMPTY(pw_add(&world, boxes, BOXES, &how, out, BOXES, &count), PW_CLOSED, count, out);
    EMPTY(pw_add(&world, boxes, BOXES, &how, out, 0, &count), PW_CLOSED, count, out);
    EMPTY(pw_move(&world, &none, 1, boxes, 1, &count), PW_CLOSED, count, out);
    EMPTY(pw_move(&world, &none, 0, boxes, 1, &count), PW_CLOSED, count, out);
    EMPTY(pw_remove(&world, &none, 1, &count), PW_CLOSED, count, out);
    EXPECT(pw_mask(&world, none, how.masks) == PW_CLOSED && pw_regroup(&world, none, how.group) == PW_CLOSED);
    EXPECT(pw_update(&world, &counts) == PW_CLOSED && counts.pairs == 0 && counts.events == 0 && counts.changes == 0);
    EMPTY(pw_pairs_now(&world, 0, pairs, ROOM, &count), PW_CLOSED, count, pairs);
    EMPTY(pw_pairs_now(&world, 0, pairs, 0, &count), PW_CLOSED, count, pairs);
    EMPTY(pw_first_hit(&world, &ray, out, &count), PW_CLOSED, count, out);
    closed_to_questions();
    closed_to_readings();
    EXPECT(pw_reader_close(&reader) == PW_CLOSED && pw_reader_open(&reader) == PW_OK && pw_reader_open(&reader) == PW_ARGUMENT);
    closed_to_questions();
    closed_to_readings();
    EXPECT(pw_share(&world, &reader) == PW_CLOSED && pw_unshare(&reader, &world) == PW_CLOSED);
    EXPECT(pw_reader_close(&reader) == PW_OK && pw_reader_close(&reader) == PW_CLOSED);
    EXPECT(pw_share(&world, &reader) == PW_CLOSED && pw_unshare(&reader, &world) == PW_CLOSED);
    EXPECT(pw_mark(&world) == PW_CLOSED && pw_forget(&world, 0) == PW_CLOSED && pw_back(&world) == PW_CLOSED);
    EXPECT(pw_close(&world) == PW_CLOSED);
}

static void open_with_boxes(uint32_t structure) {
    pw_new how = pw_seen_by_all();
    pw_counts counts;
    size_t done;
    EXPECT(pw_open(&world, structure) == PW_OK);
    EXPECT(pw_add(&world, boxes, BOXES, &how, handles, BOXES, &done) == PW_OK && done == BOXES);
    EXPECT(pw_update(&world, &counts) == PW_OK && counts.pairs == 1 && counts.events == 1 && counts.changes == 1);
}

static void wrong_opening(void) {
    REFUSED(pw_open(&world, PW_PLAIN), PW_ARGUMENT);
    REFUSED(pw_open(&world, PW_GRID), PW_ARGUMENT);
    REFUSED(pw_open(&world, PW_SKIN), PW_ARGUMENT);
    REFUSED(pw_open(&world, 77), PW_ARGUMENT);
}

static void wrong_adds(void) {
    pw_new how = pw_seen_by_all();
    pw_handle out[ROOM];
    size_t done;
    for (int axis = 0; axis < 3; axis++) {
        pw_box body = inverted_on(axis);
        STAYS(EMPTY(pw_add(&world, &body, 1, &how, out, 1, &done), PW_INVERTED, done, out));
        STAYS(EMPTY(pw_add(&world, &body, 1, &how, out, 0, &done), PW_ARGUMENT, done, out));
    }
    STAYS(EMPTY(pw_add(&world, boxes, BOXES, &how, out, BOXES - 1, &done), PW_ARGUMENT, done, out));
    STAYS(EMPTY(pw_add(&world, boxes, 0, &how, out, ROOM, &done), PW_OK, done, out));
    /* Those before the first that is refused are added, and the room behind them stays. */
    pw_box two[2] = {boxes[2], inverted_on(1)};
    memset(out, FILL, sizeof out);
    EXPECT(pw_add(&world, two, 2, &how, out, ROOM, &done) == PW_INVERTED && done == 1);
    EXPECT(out[0].slot == BOXES && out[0].generation == 0 && is_filled(out + 1, sizeof out - sizeof *out));
    EXPECT(pw_remove(&world, out, 1, &done) == PW_OK && done == 1);
}

/* Where a way meets no live box, and how far off none is. */
static void no_meetings(pw_handle stale) {
    pw_ray ray = {~0u, origin, {1, 1, 1}};
    pw_cast cast = {~0u, boxes[0], {1, 1, 1}};
    pw_hit hit[1];
    pw_square square[1];
    size_t count;
    STAYS(EMPTY(pw_ray_meets(&world, &ray, stale, hit, &count), PW_STALE, count, hit));
    STAYS(EMPTY(pw_cast_meets(&world, &cast, stale, hit, &count), PW_STALE, count, hit));
    memset(square, FILL, sizeof square);
    REFUSED(pw_square_to(&world, &origin, stale, square), PW_STALE);
    REFUSED(pw_square_apart(&world, boxes, stale, square), PW_STALE);
    EXPECT(is_filled(square, sizeof square));
    /* A box that is none is refused first, of a live box too. */
    for (int axis = 0; axis < 3; axis++) {
        cast.body = inverted_on(axis);
        REFUSED(pw_square_apart(&world, &cast.body, stale, square), PW_INVERTED);
        REFUSED(pw_square_apart(&world, &cast.body, handles[0], square), PW_INVERTED);
        EXPECT(is_filled(square, sizeof square));
        STAYS(EMPTY(pw_cast_meets(&world, &cast, stale, hit, &count), PW_INVERTED, count, hit));
        STAYS(EMPTY(pw_cast_meets(&world, &cast, handles[0], hit, &count), PW_INVERTED, count, hit));
    }
}

static void wrong_moves(void) {
    pw_handle stale[5] = {{0, 1}, {BOXES, 0}, {PW_SLOTS, 0}, PW_NO_HANDLE, {2, 0xffffffffu}};
    pw_box inverted = inverted_on(2), to[2] = {boxes[1], boxes[0]};
    size_t done;
    for (int k = 0; k < 5; k++) {
        pw_handle two[2] = {handles[0], stale[k]};
        pw_live live;
        pw_masks masks = {2, 2};
        pw_group group = {7, 1};
        memset(&live, FILL, sizeof live);
        done = 99;
        REFUSED(pw_move(&world, &stale[k], 1, boxes, 1, &done), PW_STALE);
        EXPECT(done == 0);
        /* An inverted box is refused first. */
        REFUSED(pw_move(&world, &stale[k], 1, &inverted, 1, &done), PW_INVERTED);
        REFUSED(pw_mask(&world, stale[k], masks), PW_STALE);
        REFUSED(pw_regroup(&world, stale[k], group), PW_STALE);
        REFUSED(pw_get(&world, stale[k], &live), PW_STALE);
        EXPECT(is_filled(&live, sizeof live));
        no_meetings(stale[k]);
        done = 99;
        REFUSED(pw_remove(&world, &stale[k], 1, &done), PW_STALE);
        EXPECT(done == 0);
        EXPECT(pw_move(&world, two, 2, to, 2, &done) == PW_STALE && done == 1);
        EXPECT(pw_get(&world, handles[0], &live) == PW_OK && !memcmp(&live.body, &boxes[1], sizeof live.body));
        EXPECT(pw_move(&world, handles, 1, boxes, 1, &done) == PW_OK && done == 1);
    }
    for (int axis = 0; axis < 3; axis++) {
        inverted = inverted_on(axis);
        done = 99;
        REFUSED(pw_move(&world, handles, 1, &inverted, 1, &done), PW_INVERTED);
        EXPECT(done == 0);
    }
    done = 99;
    REFUSED(pw_move(&world, handles, BOXES, boxes, BOXES - 1, &done), PW_ARGUMENT);
    EXPECT(done == 0);
    REFUSED(pw_move(&world, handles, BOXES - 1, boxes, BOXES, &done), PW_ARGUMENT);
    REFUSED(pw_move(&world, handles, 0, boxes, 1, &done), PW_ARGUMENT);
    REFUSED(pw_move(&world, handles, 0, boxes, 0, &done), PW_OK);
    REFUSED(pw_remove(&world, handles, 0, &done), PW_OK);
}

static void removed_twice(void) {
    pw_new how = pw_seen_by_all();
    pw_handle twice[2];
    size_t done;
    EXPECT(pw_add(&world, &boxes[2], 1, &how, twice, 1, &done) == PW_OK);
    twice[1] = twice[0];
    EXPECT(pw_remove(&world, twice, 2, &done) == PW_STALE && done == 1);
    REFUSED(pw_remove(&world, twice, 1, &done), PW_STALE);
    EXPECT(done == 0);
}

/* Less room than there are answers, more room, no room, and a start past the end. */
static void room_for_lists(void) {
    pw_pair pairs[ROOM];
    pw_told events[ROOM];
    size_t copied;
    const size_t past[3] = {1, 2, SIZE_MAX};
    for (int k = 0; k < 3; k++) {
        STAYS(EMPTY(pw_pairs(&world, past[k], pairs, ROOM, &copied), PW_OK, copied, pairs));
        STAYS(EMPTY(pw_events(&world, past[k], events, ROOM, &copied), PW_OK, copied, events));
        STAYS(EMPTY(pw_changes(&world, past[k], events, ROOM, &copied), PW_OK, copied, events));
    }
    STAYS(EMPTY(pw_pairs(&world, 0, pairs, 0, &copied), PW_OK, copied, pairs));
    STAYS(EMPTY(pw_events(&world, 0, events, 0, &copied), PW_OK, copied, events));
    STAYS(EMPTY(pw_changes(&world, 0, events, 0, &copied), PW_OK, copied, events));
    memset(pairs, FILL, sizeof pairs);
    memset(events, FILL, sizeof events);
    EXPECT(pw_pairs(&world, 0, pairs, ROOM, &copied) == PW_OK && copied == 1);
    EXPECT(pairs[0].a.slot == 0 && pairs[0].b.slot == 1 && is_filled(pairs + 1, sizeof pairs - sizeof *pairs));
    EXPECT(pw_events(&world, 0, events, ROOM, &copied) == PW_OK && copied == 1);
    EXPECT(events[0].event == PW_BEGIN && events[0].pair.b.slot == 1 && is_filled(events + 1, sizeof events - sizeof *events));
    memset(events, FILL, sizeof events);
    EXPECT(pw_changes(&world, 0, events, ROOM, &copied) == PW_OK && copied == 1);
    EXPECT(events[0].event == PW_BEGIN && events[0].pair.b.slot == 1 && is_filled(events + 1, sizeof events - sizeof *events));
}

/* The pairs of now, of which the count is all of them, whatever the start and the room are. What the last frame told stays. */
static void room_for_pairs_now(void) {
    const size_t past[3] = {3, 4, SIZE_MAX};
    pw_pair pairs[ROOM];
    size_t count, done;
    EXPECT(pw_move(&world, &handles[2], 1, boxes, 1, &done) == PW_OK);
    for (int k = 0; k < 3; k++) {
        memset(pairs, FILL, sizeof pairs);
        STAYS(EXPECT(pw_pairs_now(&world, past[k], pairs, ROOM, &count) == PW_OK && count == 3 && is_filled(pairs, sizeof pairs)));
    }
    for (size_t from = 0; from < 3; from++)
        for (size_t room = 0; room < ROOM; room++) {
            size_t copied = room < 3 - from ? room : 3 - from;
            memset(pairs, FILL, sizeof pairs);
            STAYS(EXPECT(pw_pairs_now(&world, from, pairs, room, &count) == PW_OK && count == 3));
            for (size_t k = 0; k < copied; k++)
                EXPECT(pairs[k].a.slot == (from + k) / 2 && pairs[k].b.slot == 1 + (from + k + 1) / 2 && pairs[k].b.generation == 0);
            EXPECT(is_filled(pairs + copied, sizeof pairs - copied * sizeof *pairs));
        }
    EXPECT(pw_pairs(&world, 0, pairs, ROOM, &count) == PW_OK && count == 1);
    EXPECT(pw_move(&world, &handles[2], 1, &boxes[2], 1, &done) == PW_OK);
    STAYS(EXPECT(pw_pairs_now(&world, 0, pairs, ROOM, &count) == PW_OK && count == 1));
}

/* A pair that stays is an event and no change: in a frame that searches, since a box came and went, and in one that doesn't. */
static void pair_that_stays(void) {
    pw_counts counts;
    pw_told events[ROOM];
    size_t copied;
    for (int k = 0; k < 2; k++) {
        EXPECT(pw_update(&world, &counts) == PW_OK && counts.pairs == 1 && counts.events == 1 && counts.changes == 0);
        STAYS(EMPTY(pw_changes(&world, 0, events, ROOM, &copied), PW_OK, copied, events));
        EXPECT(pw_events(&world, 0, events, ROOM, &copied) == PW_OK && copied == 1 && events[0].event == PW_STAY);
    }
}

static void wrong_questions(void) {
    static const uint32_t unknown[3] = {4, 99, 0xffffffffu};
    pw_handle out[ROOM];
    pw_hit hit[1];
    size_t count;
    for (int k = 0; k < 3; k++) {
        pw_query query = {unknown[k], ~0u, origin, origin};
        pw_box body = inverted_on(k);
        pw_query region = {PW_REGION, ~0u, body.lo, body.hi};
        pw_cast cast = {~0u, body, origin};
        STAYS(EMPTY(pw_hits(&world, &query, out, ROOM, &count), PW_ARGUMENT, count, out));
        STAYS(EMPTY(pw_hits(&world, &region, out, ROOM, &count), PW_ARGUMENT, count, out));
        STAYS(EMPTY(pw_cast_hits(&world, &cast, out, ROOM, &count), PW_INVERTED, count, out));
        STAYS(EMPTY(pw_cast_first(&world, &cast, hit, &count), PW_INVERTED, count, hit));
        pw_near_box near_to = {~0u, ROOM, body, {0, 0}}, nobody = {0, 0, body, {0, 0}};
        STAYS(EMPTY(pw_nearest_box(&world, &near_to, out, ROOM, &count), PW_INVERTED, count, out));
        STAYS(EMPTY(pw_nearest_box(&world, &nobody, out, ROOM, &count), PW_INVERTED, count, out));
    }
}

/* Of many questions each is the wrong one in turn, and there is room for all of them or for one less. Those before it are answered. */
static void wrong_among_many(void) {
    enum { MANY = 4 };
    pw_query right = {PW_REGION, ~0u, origin, {9, 9, 9}}, wrong[2] = {{4, ~0u, origin, origin}, {PW_REGION, ~0u, {1, 0, 0}, origin}};
    pw_cast cast = {~0u, boxes[0], origin}, inverted = {~0u, inverted_on(2), origin};
    pw_ray rays[MANY] = {{~0u, {-5, 1, 1}, {1, 0, 0}}, {~0u, {-5, 1, 1}, {-1, 0, 0}}, {2, origin, origin}, {~0u, {55, 0, 55}, {0, 1, 0}}};
    pw_handle out[2 * MANY + 1];
    pw_hit hit[MANY + 1];
    size_t ends[MANY + 1], count;
    for (size_t at = 0; at <= MANY; at++) {
        pw_query queries[MANY] = {right, right, right, right};
        pw_cast casts[MANY] = {cast, cast, cast, cast};
        pw_status wanted = at < MANY ? PW_ARGUMENT : PW_OK;
        if (at < MANY) queries[at] = wrong[at % 2], casts[at] = inverted;
        for (size_t room = 0; room <= 2 * MANY + 1; room++) {
            size_t copied = room < 2 * at ? room : 2 * at;
            memset(out, FILL, sizeof out);
            memset(ends, FILL, sizeof ends);
            count = 99;
            STAYS(EXPECT(pw_hits_each(&world, queries, MANY, out, room, ends, MANY, &count) == wanted && count == at));
            for (size_t k = 0; k < at; k++) EXPECT(ends[k] == 2 * (k + 1));
            for (size_t k = 0; k < copied; k++) EXPECT(!memcmp(&out[k], &handles[k % 2], sizeof *out));
            EXPECT(is_filled(out + copied, sizeof out - copied * sizeof *out) && is_filled(ends + at, sizeof ends - at * sizeof *ends));
        }
        memset(hit, FILL, sizeof hit);
        count = 99;
        STAYS(EXPECT(pw_cast_first_each(&world, casts, MANY, hit, MANY, &count) == (at < MANY ? PW_INVERTED : PW_OK) && count == at));
        for (size_t k = 0; k < at; k++) EXPECT(!memcmp(&hit[k].handle, &handles[0], sizeof *handles) && hit[k].axis == PW_NO_AXIS);
        EXPECT(is_filled(hit + at, sizeof hit - at * sizeof *hit));
        /* Too little room is told first, whatever the questions are, and no question needs no room. */
        memset(ends, FILL, sizeof ends);
        STAYS(EMPTY(pw_hits_each(&world, queries, MANY, out, 2 * MANY, ends, MANY - 1, &count), PW_ARGUMENT, count, out));
        STAYS(EMPTY(pw_hits_each(&world, queries, 0, out, 0, ends, 0, &count), PW_OK, count, out));
        EXPECT(is_filled(ends, sizeof ends));
        STAYS(EMPTY(pw_cast_first_each(&world, casts, MANY, hit, MANY - 1, &count), PW_ARGUMENT, count, hit));
        STAYS(EMPTY(pw_ray_first_each(&world, rays, MANY, hit, MANY - 1, &count), PW_ARGUMENT, count, hit));
        STAYS(EMPTY(pw_cast_first_each(&world, casts, 0, hit, 0, &count), PW_OK, count, hit));
        STAYS(EMPTY(pw_ray_first_each(&world, rays, 0, hit, 0, &count), PW_OK, count, hit));
    }
    memset(hit, FILL, sizeof hit);
    STAYS(EXPECT(pw_ray_first_each(&world, rays, MANY, hit, MANY + 1, &count) == PW_OK && count == MANY && is_filled(hit + MANY, sizeof *hit)));
    EXPECT(pw_has_hit(&hit[0]) && !memcmp(&hit[0].handle, &handles[0], sizeof *handles) && pw_fraction(&hit[0]) == 5 && hit[0].axis == 0);
    EXPECT(pw_has_hit(&hit[3]) && !memcmp(&hit[3].handle, &handles[2], sizeof *handles) && pw_fraction(&hit[3]) == 50 && hit[3].axis == 1);
    for (int k = 1; k < 3; k++) {
        EXPECT(!pw_has_hit(&hit[k]) && !memcmp(&hit[k].handle, &PW_NO_HANDLE, sizeof PW_NO_HANDLE) && hit[k].num == 0 && hit[k].den == 1);
        EXPECT(hit[k].axis == PW_NO_AXIS && hit[k].side == PW_LOWER);
    }
}

/* Questions of each kind that find boxes 0 and 1, with room for 0, 1, 2 and more of them. */
static void room_for_hits(void) {
    pw_query region = {PW_REGION, ~0u, origin, {9, 9, 9}}, ray = {PW_RAY, ~0u, {-5, 1, 1}, {1, 0, 0}};
    pw_ray entering = {~0u, {-5, 1, 1}, {1, 0, 0}};
    pw_cast cast = {~0u, boxes[0], {1, 0, 0}};
    pw_near near_to = {~0u, 2, origin};
    pw_near_box near_box = {~0u, 2, {{-9, 0, 0}, {-1, 1, 1}}, {1, 0}};
    for (size_t room = 0; room <= ROOM; room++) {
        pw_handle out[ROOM];
        for (int call = 0; call < 6; call++) {
            size_t count = 99, copied = room < 2 ? room : 2;
            memset(out, FILL, sizeof out);
            pw_status status = call == 0   ? pw_hits(&world, &region, out, room, &count)
                               : call == 1 ? pw_hits(&world, &ray, out, room, &count)
                               : call == 2 ? pw_ray_hits(&world, &entering, out, room, &count)
                               : call == 3 ? pw_cast_hits(&world, &cast, out, room, &count)
                               : call == 4 ? pw_nearest(&world, &near_to, out, room, &count)
                                           : pw_nearest_box(&world, &near_box, out, room, &count);
            EXPECT(status == PW_OK && count == 2 && !memcmp(out, handles, copied * sizeof *out));
            EXPECT(is_filled(out + copied, sizeof out - copied * sizeof *out));
        }
    }
}

static bool is_hit(const pw_hit *hit, uint32_t box, double place, uint32_t axis, uint32_t side) {
    return !memcmp(&hit->handle, &handles[box], sizeof hit->handle) && pw_fraction(hit) == place && hit->axis == axis && hit->side == side;
}

/* The first hit from each side, from within, on the side itself, where several sides are met at once, and none. */
static void first_hits(void) {
    const struct {
        pw_point from, direction;
        uint32_t box;
        double place;
        uint32_t axis, side;
    } rays[] = {{{-5, 1, 1}, {1, 0, 0}, 0, 5, 0, PW_LOWER},        {{60, 5, 5}, {-80, 0, 0}, 1, 0.5, 0, PW_UPPER},
                {{3, -8, 3}, {0, 4, 0}, 0, 2, 1, PW_LOWER},        {{3, 19, 3}, {0, -1, 0}, 0, 10, 1, PW_UPPER},
                {{3, 3, -1}, {0, 0, 3}, 0, 1.0 / 3, 2, PW_LOWER},  {{3, 3, 11}, {0, 0, -4}, 0, 0.5, 2, PW_UPPER},
                {{-2, -2, -2}, {1, 1, 1}, 0, 2, 0, PW_LOWER},      {{3, 11, 11}, {0, -1, -1}, 0, 2, 1, PW_UPPER},
                {{4, 4, 4}, {-1, 2, 3}, 0, 0, PW_NO_AXIS, 0},      {{4, 4, 4}, {0, 0, 0}, 0, 0, PW_NO_AXIS, 0},
                {{0, 5, 5}, {1, 0, 0}, 0, 0, 0, PW_LOWER},         {{55, 60, 55}, {0, -7, 0}, 2, 0, 1, PW_UPPER}};
    pw_cast cast = {~0u, {{-20, 2, 2}, {-10, 4, 4}}, {40, 0, 0}}, within = {~0u, boxes[0], {1, 0, 0}}, ends_short = cast;
    pw_ray other_group = {2, {-5, 1, 1}, {1, 0, 0}}, each_group = {0, {-5, 1, 1}, {1, 0, 0}}, beside = {~0u, {-5, 10, 1}, {1, 0, 0}};
    pw_hit hit[1];
    pw_handle first[1];
    size_t count;
    for (size_t k = 0; k < sizeof rays / sizeof *rays; k++) {
        pw_ray ray = {~0u, rays[k].from, rays[k].direction};
        STAYS(EXPECT(pw_ray_first(&world, &ray, hit, &count) == PW_OK && count == 1));
        EXPECT(is_hit(hit, rays[k].box, rays[k].place, rays[k].axis, rays[k].side));
        EXPECT(pw_first_hit(&world, &ray, first, &count) == PW_OK && count == 1 && !memcmp(first, &hit->handle, sizeof *first));
    }
    ends_short.by.x = 9;
    EXPECT(pw_cast_first(&world, &cast, hit, &count) == PW_OK && count == 1 && is_hit(hit, 0, 0.25, 0, PW_LOWER));
    EXPECT(pw_cast_first(&world, &within, hit, &count) == PW_OK && count == 1 && is_hit(hit, 0, 0, PW_NO_AXIS, 0));
    EMPTY(pw_cast_first(&world, &ends_short, hit, &count), PW_OK, count, hit);
    EMPTY(pw_ray_first(&world, &beside, hit, &count), PW_OK, count, hit);
    EMPTY(pw_ray_first(&world, &other_group, hit, &count), PW_OK, count, hit);
    EXPECT(pw_ray_first(&world, &each_group, hit, &count) == PW_OK && count == 1 && is_hit(hit, 0, 5, 0, PW_LOWER));
    EMPTY(pw_first_hit(&world, &beside, first, &count), PW_OK, count, first);
}

/* One box is asked of: also one that isn't met first, and by a mask that the box isn't in. */
static void meetings(void) {
    pw_ray ray = {~0u, {-5, 1, 1}, {1, 0, 0}}, back = {2, {60, 5, 5}, {-80, 0, 0}}, within = {2, {55, 55, 55}, {0, 0, 0}};
    pw_cast cast = {2, {{-20, 2, 2}, {-10, 4, 4}}, {40, 0, 0}}, ends_short = {~0u, {{-20, 2, 2}, {-10, 4, 4}}, {18, 0, 0}};
    pw_point least = {INT32_MIN, INT32_MIN, INT32_MIN}, within_0 = {9, 4, 0}, beside = {-3, 13, 9};
    pw_square square[1];
    pw_hit hit[1];
    size_t count;
    STAYS(EXPECT(pw_ray_meets(&world, &ray, handles[0], hit, &count) == PW_OK && count == 1 && is_hit(hit, 0, 5, 0, PW_LOWER)));
    STAYS(EXPECT(pw_ray_meets(&world, &ray, handles[1], hit, &count) == PW_OK && count == 1 && is_hit(hit, 1, 14, 0, PW_LOWER)));
    EXPECT(pw_ray_meets(&world, &back, handles[0], hit, &count) == PW_OK && count == 1 && is_hit(hit, 0, 51.0 / 80, 0, PW_UPPER));
    EXPECT(pw_ray_meets(&world, &within, handles[2], hit, &count) == PW_OK && count == 1 && is_hit(hit, 2, 0, PW_NO_AXIS, 0));
    STAYS(EXPECT(pw_cast_meets(&world, &cast, handles[1], hit, &count) == PW_OK && count == 1 && is_hit(hit, 1, 19.0 / 40, 0, PW_LOWER)));
    STAYS(EMPTY(pw_ray_meets(&world, &ray, handles[2], hit, &count), PW_OK, count, hit));
    STAYS(EMPTY(pw_cast_meets(&world, &ends_short, handles[1], hit, &count), PW_OK, count, hit));
    EXPECT(pw_cast_meets(&world, &ends_short, handles[0], hit, &count) == PW_OK && count == 1 && is_hit(hit, 0, 10.0 / 18, 0, PW_LOWER));
    STAYS(EXPECT(pw_square_to(&world, &within_0, handles[0], square) == PW_OK && square->low == 0 && square->high == 0));
    EXPECT(pw_square_to(&world, &beside, handles[0], square) == PW_OK && square->low == 25 && square->high == 0);
    /* Three times (2^31 + 50)^2 takes more than 63 bits, and no more than 64. */
    EXPECT(pw_square_to(&world, &least, handles[2], square) == PW_OK && square->low == 13835058699527265612u && square->high == 0);
    EXPECT(pw_squared(square) > 3221225622 && pw_squared(square) < 3221225623);
}

/* The nearest to a box, from each square on: box 1 is 4 off, box 0 is 3 and 4 off along two axes, and box 2 is far off. */
static void nearest_to_a_box(void) {
    const pw_box body = {{12, 13, 0}, {20, 30, 9}}, touching = {{20, 9, 9}, {30, 30, 30}};
    const struct {
        pw_square from;
        size_t count;
        uint32_t first;
    } asked[] = {{{0, 0}, 3, 1}, {{16, 0}, 3, 1}, {{17, 0}, 2, 0}, {{25, 0}, 2, 0}, {{26, 0}, 1, 2}, {{2981, 0}, 1, 2},
                 {{2982, 0}, 0, 0}, {{0, 1}, 0, 0}, {{~(uint64_t)0, ~(uint64_t)0}, 0, 0}};
    pw_handle out[ROOM];
    pw_square square[1];
    size_t count;
    for (size_t k = 0; k < sizeof asked / sizeof *asked; k++) {
        pw_near_box near_to = {~0u, ~0u, body, asked[k].from};
        memset(out, FILL, sizeof out);
        STAYS(EXPECT(pw_nearest_box(&world, &near_to, out, ROOM, &count) == PW_OK && count == asked[k].count));
        EXPECT(count == 0 || !memcmp(&out[0], &handles[asked[k].first], sizeof *out));
        EXPECT(is_filled(out + count, sizeof out - count * sizeof *out));
        near_to.want = 0;
        STAYS(EMPTY(pw_nearest_box(&world, &near_to, out, ROOM, &count), PW_OK, count, out));
        near_to.want = 1, near_to.mask = 2;
        STAYS(EMPTY(pw_nearest_box(&world, &near_to, out, ROOM, &count), PW_OK, count, out));
        near_to.want = ~0u, near_to.mask = 0;
        STAYS(EXPECT(pw_nearest_box(&world, &near_to, out, ROOM, &count) == PW_OK && count == asked[k].count));
    }
    STAYS(EXPECT(pw_square_apart(&world, &body, handles[0], square) == PW_OK && square->low == 25 && square->high == 0));
    EXPECT(pw_square_apart(&world, &body, handles[1], square) == PW_OK && square->low == 16 && square->high == 0);
    EXPECT(pw_square_apart(&world, &body, handles[2], square) == PW_OK && square->low == 2981 && square->high == 0);
    EXPECT(pw_square_apart(&world, &touching, handles[1], square) == PW_OK && square->low == 0 && square->high == 0);
    EXPECT(pw_square_apart(&world, boxes, handles[0], square) == PW_OK && square->low == 0 && square->high == 0);
}

/* The greatest square that there is takes two bits of the second word. */
static void farthest(void) {
    const int32_t least = INT32_MIN, most = INT32_MAX;
    pw_point from = {least, least, least};
    pw_box corner = {{most, most, most}, {most, most, most}};
    pw_square square[1];
    size_t done;
    EXPECT(pw_move(&world, &handles[2], 1, &corner, 1, &done) == PW_OK);
    EXPECT(pw_square_to(&world, &from, handles[2], square) == PW_OK && square->high == 2 && square->low == 0xfffffffa00000003u);
    EXPECT(pw_squared(square) == 12884901882);
    pw_box flat = {from, from};
    EXPECT(pw_square_apart(&world, &flat, handles[2], square) == PW_OK && square->high == 2 && square->low == 0xfffffffa00000003u);
    pw_near_box near_to = {~0u, ROOM, flat, *square};
    pw_handle out[ROOM];
    EXPECT(pw_nearest_box(&world, &near_to, out, ROOM, &done) == PW_OK && done == 1 && out[0].slot == 2);
    near_to.from.low++;
    EXPECT(pw_nearest_box(&world, &near_to, out, ROOM, &done) == PW_OK && done == 0);
    EXPECT(pw_move(&world, &handles[2], 1, &boxes[2], 1, &done) == PW_OK);
}

/* A box with no group is live. A question finds it if its mask is 0, which looks at no group, and no other question does. */
static void no_group(void) {
    pw_masks nothing = {0, ~0u}, as_before = pw_seen_by_all().masks;
    pw_ray ray = {~0u, {55, 55, 0}, {0, 0, 1}}, each_ray = {0, {55, 55, 0}, {0, 0, 1}};
    pw_cast cast = {~0u, {{55, 55, 0}, {55, 55, 0}}, {0, 0, 100}}, each_cast = cast;
    pw_query query = {PW_POINT, ~0u, {55, 55, 55}, origin}, each_query = {PW_POINT, 0, {55, 55, 55}, origin};
    pw_near_box near_box = {~0u, ROOM, boxes[2], {0, 0}};
    pw_hit hit[1];
    pw_handle out[ROOM];
    size_t count;
    pw_near near_to = {~0u, ROOM, {55, 55, 55}};
    EXPECT(pw_mask(&world, handles[2], nothing) == PW_OK);
    EMPTY(pw_ray_first(&world, &ray, hit, &count), PW_OK, count, hit);
    EMPTY(pw_ray_hits(&world, &ray, out, ROOM, &count), PW_OK, count, out);
    EMPTY(pw_cast_first(&world, &cast, hit, &count), PW_OK, count, hit);
    EMPTY(pw_cast_hits(&world, &cast, out, ROOM, &count), PW_OK, count, out);
    EMPTY(pw_hits(&world, &query, out, ROOM, &count), PW_OK, count, out);
    EXPECT(pw_nearest(&world, &near_to, out, ROOM, &count) == PW_OK && count == 2 && out[0].slot == 1);
    EXPECT(pw_nearest_box(&world, &near_box, out, ROOM, &count) == PW_OK && count == 2 && out[0].slot == 1);
    each_cast.mask = near_to.mask = near_box.mask = 0;
    EXPECT(pw_ray_first(&world, &each_ray, hit, &count) == PW_OK && count == 1 && is_hit(hit, 2, 50, 2, PW_LOWER));
    EXPECT(pw_ray_hits(&world, &each_ray, out, ROOM, &count) == PW_OK && count == 1 && out[0].slot == 2);
    EXPECT(pw_cast_first(&world, &each_cast, hit, &count) == PW_OK && count == 1 && is_hit(hit, 2, 0.5, 2, PW_LOWER));
    EXPECT(pw_cast_hits(&world, &each_cast, out, ROOM, &count) == PW_OK && count == 1 && out[0].slot == 2);
    EXPECT(pw_hits(&world, &each_query, out, ROOM, &count) == PW_OK && count == 1 && out[0].slot == 2);
    EXPECT(pw_nearest(&world, &near_to, out, ROOM, &count) == PW_OK && count == 3 && out[0].slot == 2);
    EXPECT(pw_nearest_box(&world, &near_box, out, ROOM, &count) == PW_OK && count == 3 && out[0].slot == 2);
    /* By its handle it is found as well. */
    EXPECT(pw_ray_meets(&world, &ray, handles[2], hit, &count) == PW_OK && count == 1 && is_hit(hit, 2, 50, 2, PW_LOWER));
    EXPECT(pw_mask(&world, handles[2], as_before) == PW_OK);
    EXPECT(pw_ray_first(&world, &ray, hit, &count) == PW_OK && count == 1 && is_hit(hit, 2, 50, 2, PW_LOWER));
}

/* Questions whose numbers are as large as they may be, or name no box. */
static void questions_at_the_ends(void) {
    const int32_t least = INT32_MIN, most = INT32_MAX;
    pw_handle out[ROOM];
    size_t count;
    pw_ray ray = {~0u, {least, least, least}, {most, most, most}}, other_group = {2, {-5, 1, 1}, {1, 0, 0}};
    pw_cast cast = {~0u, {{least, least, least}, {least, least, least}}, {most, most, most}};
    pw_query segment = {PW_SEGMENT, ~0u, {least, 0, 0}, {most, 0, 0}}, all = {PW_REGION, ~0u, {least, least, least}, {most, most, most}};
    pw_hit hit[1];
    pw_near none = {~0u, 0, origin}, nobody = {2, 5, origin}, each_group = {0, 5, origin}, everybody = {~0u, ~0u, {most, most, most}};
    EXPECT(pw_ray_hits(&world, &ray, out, ROOM, &count) == PW_OK && count == 3 && !memcmp(out, handles, sizeof handles));
    EXPECT(pw_cast_hits(&world, &cast, out, ROOM, &count) == PW_OK && count == 0);
    EXPECT(pw_ray_first(&world, &ray, hit, &count) == PW_OK && count == 1 && is_hit(hit, 0, 2147483648.0 / 2147483647, 0, PW_LOWER));
    EMPTY(pw_cast_first(&world, &cast, hit, &count), PW_OK, count, hit);
    EXPECT(pw_hits(&world, &segment, out, ROOM, &count) == PW_OK && count == 2);
    EXPECT(pw_hits(&world, &all, out, ROOM, &count) == PW_OK && count == 3);
    EXPECT(pw_nearest(&world, &everybody, out, ROOM, &count) == PW_OK && count == 3 && out[0].slot == 2);
    EMPTY(pw_ray_hits(&world, &other_group, out, ROOM, &count), PW_OK, count, out);
    EMPTY(pw_nearest(&world, &none, out, ROOM, &count), PW_OK, count, out);
    EMPTY(pw_nearest(&world, &nobody, out, ROOM, &count), PW_OK, count, out);
    EXPECT(pw_nearest(&world, &each_group, out, ROOM, &count) == PW_OK && count == 3);
}

static void slots_with_and_without_boxes(void) {
    uint32_t empty[5] = {BOXES, PW_SLOTS - 1, PW_SLOTS, PW_SLOTS + 1, ~0u};
    pw_handle handle[1];
    pw_live live[1], wanted;
    for (int k = 0; k < 5; k++) {
        memset(handle, FILL, sizeof handle);
        memset(live, FILL, sizeof live);
        REFUSED(pw_at(&world, empty[k], handle, live), PW_STALE);
        EXPECT(is_filled(handle, sizeof handle) && is_filled(live, sizeof live));
    }
    for (uint32_t slot = 0; slot < BOXES; slot++) {
        STAYS(EXPECT(pw_at(&world, slot, handle, live) == PW_OK && !memcmp(handle, &handles[slot], sizeof *handle)));
        EXPECT(pw_get(&world, handle[0], &wanted) == PW_OK && !memcmp(live, &wanted, sizeof wanted));
    }
}

static void marks_at_the_ends(void) {
    pw_world_info info;
    REFUSED(pw_back(&world), PW_NO_MARK);
    for (uint32_t held = 0; held < PW_MOST_MARKS; held++) EXPECT(pw_mark(&world) == PW_OK);
    REFUSED(pw_mark(&world), PW_FULL);
    EXPECT(pw_info(&world, &info) == PW_OK && info.marks == PW_MOST_MARKS);
    REFUSED(pw_forget(&world, PW_MOST_MARKS + 1), PW_NO_MARK);
    REFUSED(pw_forget(&world, ~0u), PW_NO_MARK);
    EXPECT(pw_forget(&world, 1) == PW_OK && pw_mark(&world) == PW_OK);
    REFUSED(pw_mark(&world), PW_FULL);
    EXPECT(pw_forget(&world, 2) == PW_OK && pw_forget(&world, 0) == PW_OK);
    for (uint32_t held = 2; held < PW_MOST_MARKS; held++) EXPECT(pw_back(&world) == PW_OK);
    REFUSED(pw_back(&world), PW_NO_MARK);
    REFUSED(pw_forget(&world, 1), PW_NO_MARK);
    EXPECT(pw_mark(&world) == PW_OK && pw_mark(&world) == PW_OK && pw_forget(&world, 2) == PW_OK);
    REFUSED(pw_back(&world), PW_NO_MARK);
}

/* 8,192 boxes live at once, whatever was asked for. */
static void one_box_too_many(void) {
    static pw_box many[PW_SLOTS + 1];
    static pw_handle out[PW_SLOTS + 1];
    pw_new how = pw_seen_by_all();
    pw_world_info info;
    size_t done, left = PW_SLOTS - BOXES;
    for (size_t k = 0; k <= PW_SLOTS; k++) {
        int32_t x = 100 + 2 * (int32_t)k;
        many[k] = (pw_box){{x, 0, 0}, {x + 1, 1, 1}};
    }
    memset(out, FILL, sizeof out);
    EXPECT(pw_add(&world, many, PW_SLOTS + 1, &how, out, PW_SLOTS + 1, &done) == PW_FULL && done == left);
    EXPECT(is_filled(out + left, (PW_SLOTS + 1 - left) * sizeof *out) && out[left - 1].slot == PW_SLOTS - 1);
    REFUSED(pw_add(&world, many, 1, &how, out + left, 1, &done), PW_FULL);
    EXPECT(done == 0);
    pw_box inverted = inverted_on(0);
    REFUSED(pw_add(&world, &inverted, 1, &how, out + left, 1, &done), PW_INVERTED);
    EXPECT(pw_info(&world, &info) == PW_OK && info.boxes == PW_SLOTS);
    EXPECT(pw_remove(&world, out, left, &done) == PW_OK && done == left);
}

static void wrong_floats(void) {
    const struct {
        float number;
        pw_status below, above;
    } floats[] = {{NAN, PW_NOT_A_NUMBER, PW_NOT_A_NUMBER},       {-NAN, PW_NOT_A_NUMBER, PW_NOT_A_NUMBER},
                  {INFINITY, PW_OUT_OF_RANGE, PW_OUT_OF_RANGE},  {-INFINITY, PW_OUT_OF_RANGE, PW_OUT_OF_RANGE},
                  {32768.0f, PW_OUT_OF_RANGE, PW_OUT_OF_RANGE},  {-32768.004f, PW_OUT_OF_RANGE, PW_OUT_OF_RANGE},
                  {3.4e38f, PW_OUT_OF_RANGE, PW_OUT_OF_RANGE},   {32767.998f, PW_OK, PW_OK},
                  {-32768.0f, PW_OK, PW_OK},                     {1e-45f, PW_OK, PW_OK}};
    for (size_t k = 0; k < sizeof floats / sizeof *floats; k++) {
        int32_t out = 77;
        float lo[3] = {0, floats[k].number, NAN}, hi[3] = {1, INFINITY, 0};
        pw_box around;
        EXPECT(pw_fix_below(floats[k].number, &out) == floats[k].below && (out == 77) == (floats[k].below != PW_OK));
        out = 77;
        EXPECT(pw_fix_above(floats[k].number, &out) == floats[k].above && (out == 77) == (floats[k].above != PW_OK));
        /* The first axis with a fault decides, and on it the lower float. */
        memset(&around, FILL, sizeof around);
        EXPECT(pw_box_around(lo, hi, &around) == (floats[k].below ? floats[k].below : PW_OUT_OF_RANGE));
        EXPECT(is_filled(&around, sizeof around));
    }
    const float one[3] = {1, 1, 1}, less[3] = {1, 0.5f, 1}, zero[3] = {0, 0, 0}, below_zero[3] = {-0.0f, -0.0f, -0.0f};
    pw_box around;
    memset(&around, FILL, sizeof around);
    EXPECT(pw_box_around(one, less, &around) == PW_INVERTED && is_filled(&around, sizeof around));
    EXPECT(pw_box_around(zero, below_zero, &around) == PW_OK && around.lo.x == 0 && around.hi.z == 0);
}

/* Doubles lie between raw numbers: the last of them is within reach from below alone, and the first from above alone. */
static void wrong_doubles(void) {
    const double last = 32767.99999, first = -32768.000001, tenth[3] = {0.1, -0.1, 0.1}, more[3] = {0.1, 0.1, NAN};
    uint64_t bits;
    int32_t out = 77;
    pw_box around;
    memcpy(&bits, &last, sizeof bits);
    EXPECT(pw_fix_above_64(bits, &out) == PW_OUT_OF_RANGE && out == 77);
    EXPECT(pw_fix_below_64(bits, &out) == PW_OK && out == INT32_MAX);
    memcpy(&bits, &first, sizeof bits);
    out = 77;
    EXPECT(pw_fix_below_64(bits, &out) == PW_OUT_OF_RANGE && out == 77);
    EXPECT(pw_fix_above_64(bits, &out) == PW_OK && out == INT32_MIN);
    memset(&around, FILL, sizeof around);
    EXPECT(pw_box_around_double(tenth, more, &around) == PW_NOT_A_NUMBER && is_filled(&around, sizeof around));
    EXPECT(pw_box_around_double(tenth, tenth, &around) == PW_OK && around.lo.x == 6553 && around.hi.x == 6554 && around.lo.y == -6554);
}

static bool is_around(const pw_box *box, pw_box wanted) { return !memcmp(box, &wanted, sizeof wanted); }

/* Bounds without end, past the range, on it and within, of floats and of doubles. */
static void boxes_cut_to_the_range(void) {
    const int32_t least = INT32_MIN, most = INT32_MAX;
    const float below[3] = {-INFINITY, -40000, 1}, above[3] = {INFINITY, 0.1f, 3.0e38f}, past[3] = {40000, -1e30f, 2}, far[3] = {50000, -40000, 2};
    const double low[3] = {-INFINITY, -40000, 0.1}, high[3] = {INFINITY, 0.1, 32767.99999}, nan[3] = {0, NAN, 0}, beyond[3] = {50000, 0, 0};
    const double first[3] = {-32768, 32767.999984741211, 0}, over[3] = {40000, 0, 0}, zero[3] = {0, 0, 0};
    pw_box around;
    EXPECT(pw_box_around_cut(below, above, &around) == PW_OK);
    EXPECT(is_around(&around, (pw_box){{least, least, 65536}, {most, 6554, most}}));
    EXPECT(pw_box_around_cut_double(low, high, &around) == PW_OK);
    EXPECT(is_around(&around, (pw_box){{least, least, 6553}, {most, 6554, most}}));
    /* Past one end it is flat. */
    EXPECT(pw_box_around_cut(past, far, &around) == PW_OK);
    EXPECT(is_around(&around, (pw_box){{most, least, 131072}, {most, least, 131072}}));
    EXPECT(pw_box_around_cut_double(over, beyond, &around) == PW_OK && around.lo.x == most && around.hi.x == most);
    EXPECT(pw_box_around_cut_double(first, first, &around) == PW_OK && is_around(&around, (pw_box){{least, most, 0}, {least, most, 0}}));
    /* What is cut to one number may be inverted. */
    memset(&around, FILL, sizeof around);
    EXPECT(pw_box_around_cut_double(beyond, over, &around) == PW_INVERTED && pw_box_around_cut_double(nan, zero, &around) == PW_NOT_A_NUMBER);
    EXPECT(pw_box_around_cut_double(zero, nan, &around) == PW_NOT_A_NUMBER && pw_box_around_cut_double(over, nan, &around) == PW_INVERTED);
    EXPECT(is_filled(&around, sizeof around));
}

/* A number whose float is 30001 is rounded as the double that it is, whatever its qualifiers are, and evaluated once. */
static void doubles_where_floats_are_taken(void) {
    const double numbers[2] = {30000.99999, -30000.99999}, *next = numbers;
    const int32_t whole = 30001 * 65536, fifth = 13107;
    volatile double changing = numbers[0];
    pw_status (*of_floats)(float, int32_t *) = pw_fix_below;
    int32_t out;
    EXPECT(pw_fix_below(30000.99999, &out) == PW_OK && out == whole - 1 && out == 1966145535);
    EXPECT(pw_fix_above(-30000.99999, &out) == PW_OK && out == 1 - whole);
    EXPECT(pw_fix_below(changing, &out) == PW_OK && out == whole - 1);
    EXPECT(pw_fix_below(*next++, &out) == PW_OK && out == whole - 1 && next == numbers + 1);
    EXPECT(pw_fix_above(*next++, &out) == PW_OK && out == 1 - whole && next == numbers + 2);
    EXPECT(pw_fix_above(32767.99999, &out) == PW_OUT_OF_RANGE && pw_fix_below(32767.99999, &out) == PW_OK && out == INT32_MAX);
    /* Floats and whole numbers are what they were, and so are the functions. */
    EXPECT(pw_fix_below(30000.99999f, &out) == PW_OK && out == whole);
    EXPECT(pw_fix_below(0.2f, &out) == PW_OK && out == fifth && pw_fix_above(0.2f, &out) == PW_OK && out == fifth + 1);
    EXPECT(pw_fix_below(3, &out) == PW_OK && out == 3 * 65536 && pw_fix_above(-32768ll, &out) == PW_OK && out == INT32_MIN);
    EXPECT(pw_fix_below(32768u, &out) == PW_OUT_OF_RANGE && pw_fix_above(INT64_MIN, &out) == PW_OUT_OF_RANGE);
    EXPECT((pw_fix_below)(30000.99999f, &out) == PW_OK && out == whole && of_floats(0.2f, &out) == PW_OK && out == fifth);
}

int main(void) {
    EXPECT(pw_version() == PW_VERSION_NUMBER);
    closed_world();
    for (uint32_t structure = PW_PLAIN; structure <= PW_SKIN; structure++) {
        open_with_boxes(structure);
        wrong_opening();
        wrong_adds();
        wrong_moves();
        removed_twice();
        room_for_lists();
        room_for_pairs_now();
        pair_that_stays();
        wrong_questions();
        wrong_among_many();
        room_for_hits();
        first_hits();
        meetings();
        nearest_to_a_box();
        farthest();
        no_group();
        questions_at_the_ends();
        slots_with_and_without_boxes();
        marks_at_the_ends();
        one_box_too_many();
        EXPECT(pw_close(&world) == PW_OK);
        closed_world();
    }
    wrong_floats();
    wrong_doubles();
    boxes_cut_to_the_range();
    doubles_where_floats_are_taken();
    return tested("wrong_arguments");
}
