/* Random sequences of calls that open, share, join, leave, change and close, over several worlds and readers, beside a model of who reads
 * what: each status, and after each call what every world and every reader tells. Words: the number of calls, and the seed. */
#include "expect.h"
#include "pungwelair.h"
#include <stdlib.h>

enum { WORLDS = 3, READERS = 5, STATUSES = PW_SHARED + 1 };
enum call { OPEN, CLOSE, OPEN_READER, CLOSE_READER, SHARE, JOIN, UNSHARE, CHANGE, CALLS };

static pw_world worlds[WORLDS];
static pw_reader readers[READERS];

/* The model. A world is told by its one box, which begins as far from the origin as its number says. No number is given twice. */
static int32_t number_of_world[WORLDS]; /* 0: it isn't open */
static bool is_open[READERS];
static int32_t number_read[READERS]; /* 0: it reads no world */
static int32_t numbers_given;

/* How often each call came to each status. */
static long seen[CALLS][STATUSES];

/* Random numbers: splitmix64. */
static uint64_t seed;

static uint32_t below(uint32_t limit) {
    uint64_t z = seed += 0x9e3779b97f4a7c15u;
    z = (z ^ z >> 30) * 0xbf58476d1ce4e5b9u;
    z = (z ^ z >> 27) * 0x94d049bb133111ebu;
    return (uint32_t)((z ^ z >> 31) % limit);
}

static void told(enum call call, pw_status status, pw_status wanted) {
    EXPECT(status == wanted);
    if (status < STATUSES) seen[call][status]++;
}

static pw_box box_of(int32_t number) { return (pw_box){{number, 0, 0}, {number + 5, 5, 5}}; }

static const pw_point origin = {0, 0, 0};
static const pw_handle only = {0, 0};

/* Whether the world that was asked has this number, or there is none. */
static bool is_number(pw_status status, const pw_square *square, int32_t number) {
    if (number == 0) return status == PW_CLOSED && is_filled(square, sizeof *square);
    return status == PW_OK && square->high == 0 && square->low == (uint64_t)number * (uint64_t)number;
}

static void look(void) {
    pw_square square;
    for (int w = 0; w < WORLDS; w++) {
        memset(&square, FILL, sizeof square);
        pw_status status = pw_square_to(&worlds[w], &origin, only, &square);
        EXPECT(is_number(status, &square, number_of_world[w]));
    }
    for (int r = 0; r < READERS; r++) {
        memset(&square, FILL, sizeof square);
        pw_status status = pw_reader_square_to(&readers[r], &origin, only, &square);
        EXPECT(is_number(status, &square, number_read[r]));
    }
}

static int readers_of(int32_t number) {
    int count = 0;
    for (int r = 0; r < READERS; r++) count += number_read[r] == number;
    return count;
}

static void try_open(int w) {
    pw_new how = pw_seen_by_all();
    pw_handle handle;
    size_t done;
    pw_status wanted = number_of_world[w] ? PW_ARGUMENT : PW_OK;
    told(OPEN, pw_open(&worlds[w], below(5)), wanted);
    if (wanted != PW_OK) return;
    number_of_world[w] = ++numbers_given;
    pw_box body = box_of(number_of_world[w]);
    EXPECT(pw_add(&worlds[w], &body, 1, &how, &handle, 1, &done) == PW_OK && done == 1 && handle.slot == 0 && handle.generation == 0);
}

static void try_close(int w) {
    told(CLOSE, pw_close(&worlds[w]), number_of_world[w] ? PW_OK : PW_CLOSED);
    number_of_world[w] = 0;
}

static void try_open_reader(int r) {
    told(OPEN_READER, pw_reader_open(&readers[r]), is_open[r] ? PW_ARGUMENT : PW_OK);
    is_open[r] = true;
}

static void try_close_reader(int r) {
    pw_status wanted = !is_open[r] ? PW_CLOSED : number_read[r] ? PW_SHARED : PW_OK;
    told(CLOSE_READER, pw_reader_close(&readers[r]), wanted);
    if (wanted == PW_OK) is_open[r] = false;
}

static void try_share(int w, int r) {
    pw_status wanted = !number_of_world[w] || !is_open[r] ? PW_CLOSED : number_read[r] ? PW_SHARED : PW_OK;
    told(SHARE, pw_share(&worlds[w], &readers[r]), wanted);
    if (wanted == PW_OK) number_read[r] = number_of_world[w], number_of_world[w] = 0;
}

static void try_join(int r, int other) {
    if (r == other) return;
    pw_status wanted = !number_read[r] || !is_open[other] ? PW_CLOSED : number_read[other] ? PW_SHARED : PW_OK;
    told(JOIN, pw_join(&readers[r], &readers[other]), wanted);
    if (wanted == PW_OK) number_read[other] = number_read[r];
}

static void try_unshare(int r, int w) {
    bool is_last = readers_of(number_read[r]) == 1;
    pw_status wanted = number_of_world[w] ? PW_ARGUMENT : !number_read[r] ? PW_CLOSED : is_last ? PW_OK : PW_SHARED;
    told(UNSHARE, pw_unshare(&readers[r], &worlds[w]), wanted);
    if (wanted == PW_OK) number_of_world[w] = number_read[r];
    if (wanted == PW_OK || wanted == PW_SHARED) number_read[r] = 0;
}

/* The box of an open world is moved, and the world has another number. No reader's world changes. */
static void try_change(int w) {
    pw_box body = box_of(numbers_given + 1);
    pw_counts counts;
    size_t done;
    pw_status wanted = number_of_world[w] ? PW_OK : PW_CLOSED;
    told(CHANGE, pw_move(&worlds[w], &only, 1, &body, 1, &done), wanted);
    EXPECT(pw_update(&worlds[w], &counts) == wanted);
    if (wanted == PW_OK) number_of_world[w] = ++numbers_given;
}

/* What a reader answers, of each kind: of the one box of its world, or that it has none. */
static void try_questions(int r) {
    pw_reader *reader = &readers[r];
    int32_t x = number_read[r];
    pw_status wanted = x ? PW_OK : PW_CLOSED;
    size_t met = x ? 1 : 0, count, ends[2] = {9, 9};
    pw_query queries[2] = {{PW_POINT, 1, {x, 0, 0}, origin}, {PW_POINT, 1, {x - 1, 0, 0}, origin}}, none = {9, 1, origin, origin};
    pw_ray rays[2] = {{1, {x - 2, 1, 1}, {4, 0, 0}}, {1, {x - 2, 1, 1}, {-4, 0, 0}}};
    pw_cast casts[2] = {{1, {{x - 6, 0, 0}, {x - 2, 1, 1}}, {4, 0, 0}}, {1, {{x - 6, 0, 0}, {x - 2, 1, 1}}, {1, 0, 0}}};
    pw_near near_to = {1, 3, origin};
    pw_near_box near_box = {1, 3, {{x - 3, 0, 0}, {x - 2, 0, 0}}, {4, 0}}, inverted = {1, 3, {{1, 0, 0}, origin}, {0, 0}};
    pw_handle handle;
    pw_hit hit, hits[2];
    pw_square square;
    pw_query other_group = {PW_POINT, 2, {x, 0, 0}, origin}, each_group = {PW_POINT, 0, {x, 0, 0}, origin};
    EXPECT(pw_reader_hits(reader, &queries[0], &handle, 1, &count) == wanted && count == met);
    EXPECT(pw_reader_hits(reader, &none, &handle, 1, &count) == (x ? PW_ARGUMENT : PW_CLOSED) && count == 0);
    EXPECT(pw_reader_hits(reader, &other_group, &handle, 1, &count) == wanted && count == 0);
    EXPECT(pw_reader_hits(reader, &each_group, &handle, 1, &count) == wanted && count == met);
    EXPECT(pw_reader_ray_hits(reader, &rays[0], &handle, 1, &count) == wanted && count == met);
    EXPECT(pw_reader_cast_hits(reader, &casts[0], &handle, 1, &count) == wanted && count == met);
    EXPECT(pw_reader_nearest(reader, &near_to, &handle, 1, &count) == wanted && count == met);
    EXPECT(pw_reader_nearest_box(reader, &near_box, &handle, 1, &count) == wanted && count == met);
    EXPECT(pw_reader_nearest_box(reader, &inverted, &handle, 1, &count) == (x ? PW_INVERTED : PW_CLOSED) && count == 0);
    EXPECT(pw_reader_ray_first(reader, &rays[0], &hit, &count) == wanted && count == met && (!x || hit.num * 2 == hit.den));
    EXPECT(pw_reader_cast_first(reader, &casts[0], &hit, &count) == wanted && count == met && (!x || hit.num * 2 == hit.den));
    EXPECT(pw_reader_ray_meets(reader, &rays[1], only, &hit, &count) == wanted && count == 0);
    EXPECT(pw_reader_ray_meets(reader, &rays[0], PW_NO_HANDLE, &hit, &count) == (x ? PW_STALE : PW_CLOSED) && count == 0);
    EXPECT(pw_reader_cast_meets(reader, &casts[0], only, &hit, &count) == wanted && count == met);
    EXPECT(pw_reader_square_apart(reader, &near_box.body, only, &square) == wanted && (!x || square.low == 4));
    EXPECT(pw_reader_square_apart(reader, &inverted.body, only, &square) == (x ? PW_INVERTED : PW_CLOSED));
    EXPECT(pw_reader_hits_each(reader, queries, 2, &handle, 1, ends, 2, &count) == wanted && count == 2 * met);
    EXPECT(x ? ends[0] == 1 && ends[1] == 1 : ends[0] == 9 && ends[1] == 9);
    EXPECT(pw_reader_ray_first_each(reader, rays, 2, hits, 2, &count) == wanted && count == 2 * met);
    EXPECT(!x || (pw_has_hit(&hits[0]) && hits[0].num * 2 == hits[0].den && !pw_has_hit(&hits[1])));
    EXPECT(pw_reader_cast_first_each(reader, casts, 2, hits, 2, &count) == wanted && count == 2 * met);
    EXPECT(!x || (pw_has_hit(&hits[0]) && hits[0].num * 2 == hits[0].den && !pw_has_hit(&hits[1])));
}

/* What a reader tells without a question: of the one box of its world, which has been in no frame or in those that moved it. */
static void try_readings(int r) {
    pw_reader *reader = &readers[r];
    int32_t x = number_read[r];
    pw_status wanted = x ? PW_OK : PW_CLOSED, stale = x ? PW_STALE : PW_CLOSED;
    pw_box body = box_of(x);
    pw_handle handle;
    pw_live live;
    pw_pair pairs[1];
    pw_told told_of[1];
    pw_world_info info;
    size_t copied = 9;
    memset(&live, FILL, sizeof live);
    EXPECT(pw_reader_get(reader, PW_NO_HANDLE, &live) == stale && pw_reader_at(reader, 1, &handle, &live) == stale);
    EXPECT(pw_reader_at(reader, PW_SLOTS, &handle, &live) == stale && is_filled(&live, sizeof live));
    EXPECT(pw_reader_get(reader, only, &live) == wanted && (x ? !memcmp(&live.body, &body, sizeof body) : is_filled(&live, sizeof live)));
    memset(&live, FILL, sizeof live);
    EXPECT(pw_reader_at(reader, 0, &handle, &live) == wanted && (!x || (handle.slot == 0 && live.masks.is == 1)));
    EXPECT(x ? !memcmp(&live.body, &body, sizeof body) : is_filled(&live, sizeof live));
    EXPECT(pw_reader_pairs(reader, 0, pairs, 1, &copied) == wanted && copied == 0);
    EXPECT(pw_reader_events(reader, 0, told_of, 1, &copied) == wanted && copied == 0);
    EXPECT(pw_reader_changes(reader, 0, told_of, 1, &copied) == wanted && copied == 0);
    memset(&info, FILL, sizeof info);
    EXPECT(pw_reader_info(reader, &info) == wanted);
    EXPECT(x ? info.boxes == 1 && info.spent == 0 && info.marks == 0 : is_filled(&info, sizeof info));
}

static void try_some_call(void) {
    int w = (int)below(WORLDS), r = (int)below(READERS), other = (int)below(READERS);
    switch (below(16)) {
    case 0: case 1: try_open(w); break;
    case 2: try_close(w); break;
    case 3: case 4: case 5: try_open_reader(r); break;
    case 6: try_close_reader(r); break;
    case 7: case 8: try_share(w, r); break;
    case 9: case 10: case 11: try_join(r, other); break;
    case 12: case 13: try_unshare(r, w); break;
    case 14: try_change(w); break;
    default: below(2) ? try_questions(r) : try_readings(r); break;
    }
    look();
}

/* All leave and all is closed, whatever is open: nothing is lost. */
static void close_all(void) {
    for (int r = 0; r < READERS; r++) {
        if (number_read[r]) {
            if (number_of_world[0]) try_close(0);
            try_unshare(r, 0);
        }
        if (is_open[r]) try_close_reader(r);
    }
    for (int w = 0; w < WORLDS; w++)
        if (number_of_world[w]) try_close(w);
    look();
}

int main(int count, char **words) {
    static const struct {
        enum call call;
        pw_status status;
    } possible[] = {{OPEN, PW_OK}, {OPEN, PW_ARGUMENT}, {CLOSE, PW_OK}, {CLOSE, PW_CLOSED}, {OPEN_READER, PW_OK},
                    {OPEN_READER, PW_ARGUMENT}, {CLOSE_READER, PW_OK}, {CLOSE_READER, PW_CLOSED}, {CLOSE_READER, PW_SHARED},
                    {SHARE, PW_OK}, {SHARE, PW_CLOSED}, {SHARE, PW_SHARED}, {JOIN, PW_OK}, {JOIN, PW_CLOSED}, {JOIN, PW_SHARED},
                    {UNSHARE, PW_OK}, {UNSHARE, PW_SHARED}, {UNSHARE, PW_CLOSED}, {UNSHARE, PW_ARGUMENT}, {CHANGE, PW_OK},
                    {CHANGE, PW_CLOSED}};
    long calls = count > 1 ? atol(words[1]) : 20000;
    seed = count > 2 ? strtoull(words[2], NULL, 10) : 1;
    for (long k = 0; k < calls; k++) try_some_call();
    close_all();
    for (size_t k = 0; k < sizeof possible / sizeof *possible; k++) EXPECT(seen[possible[k].call][possible[k].status] > 0);
    printf("readers: %ld worlds shared, %ld joined, %ld came back\n", seen[SHARE][PW_OK], seen[JOIN][PW_OK], seen[UNSHARE][PW_OK]);
    return tested("readers");
}
