/* Random calls beside a model that tests every box, in whole numbers: each answer, each count and what must stay are compared.
 * Words: the number of calls for each structure, and the seed. */
#include "expect.h"
#include "model.h"

enum { MOST_HANDLES = 4 * MOST, BATCH = 8, READERS = 4 };

static struct model marked[PW_MOST_MARKS];
static uint64_t exchanges_when_marked[PW_MOST_MARKS];
static uint32_t marks;

/* Handles that were given at some time. Many are stale. */
static pw_handle handles[MOST_HANDLES];
static size_t handle_count;

static pw_world world = PW_WORLD_INIT;

/* Some of them read the world while it is shared: then `asker` is one of these. */
static pw_reader readers[READERS];
static pw_reader *asker;

/* How many answers had something in them. */
static long pairs_seen, over_seen, hits_seen, firsts_seen, meetings_seen, squares_seen, others_seen, beyond_seen, each_seen, shares_seen;

/* How many boxes of no group were found, and how much was read by readers. */
static long ungrouped_seen, readings_seen;

/* Random numbers: splitmix64. */
static uint64_t seed;

static uint64_t next(void) {
    uint64_t z = seed += 0x9e3779b97f4a7c15u;
    z = (z ^ z >> 30) * 0xbf58476d1ce4e5b9u;
    z = (z ^ z >> 27) * 0x94d049bb133111ebu;
    return z ^ z >> 31;
}

static uint32_t below(uint32_t limit) { return (uint32_t)(next() % limit); }

/* Mostly near each other and on a coarse lattice, so that boxes meet and tie; sometimes at the ends of the range. */
static int32_t coordinate(void) {
    static const int32_t ends[] = {INT32_MIN, INT32_MIN + 1, -1, 0, 1, INT32_MAX - 1, INT32_MAX};
    switch (below(16)) {
    case 0: return ends[below(7)];
    case 1: return (int32_t)next();
    case 2: case 3: return (int32_t)below(1200) - 600;
    default: return ((int32_t)below(24) - 12) * 50;
    }
}

static pw_point place(void) { return (pw_point){coordinate(), coordinate(), coordinate()}; }

static void put_in_order(int32_t *low, int32_t *high) {
    if (*low > *high) {
        int32_t kept = *low;
        *low = *high, *high = kept;
    }
}

/* A box, and one time in thirty any two corners, which are mostly inverted. */
static pw_box some_box(void) {
    pw_box body = {place(), place()};
    if (below(30) == 0) return body;
    put_in_order(&body.lo.x, &body.hi.x);
    put_in_order(&body.lo.y, &body.hi.y);
    put_in_order(&body.lo.z, &body.hi.z);
    return body;
}

static uint32_t some_mask(void) { return below(4) ? 0xffffffffu : below(3) ? below(16) : 0; }

/* The group that a box is in, or none. */
static uint32_t some_group(void) { return below(8) ? 1u << below(4) : 0; }

/* Mostly a live box's, sometimes an old one, and sometimes any. */
static pw_handle some_handle(void) {
    uint32_t slot = below(MOST), kind = below(20);
    if (handle_count == 0 || kind == 0) return (pw_handle){below(2 * MOST), below(4)};
    if (now.boxes == 0 || kind == 1) return handles[below((uint32_t)handle_count)];
    while (!now.lives[slot]) slot = (slot + 1) % MOST;
    return handle_of(slot);
}

static bool are_copied(const void *out, size_t room, const void *items, size_t count, size_t size) {
    size_t copied = count < room ? count : room;
    return memcmp(out, items, copied * size) == 0 && is_filled((const char *)out + copied * size, (room - copied) * size);
}

/* The calls, each beside the model. */

static void try_add(void) {
    pw_box boxes[BATCH] = {0};
    pw_handle out[BATCH], given[BATCH];
    pw_new how = {{some_group(), some_mask()}, {below(4) ? 0 : 1 + below(3), below(6) == 0 ? 1 + below(2) : 0}};
    size_t len = below(BATCH + 1), count = 0, done = 99;
    pw_status wanted = PW_OK;
    if (now.boxes + len > MOST) return;
    for (size_t k = 0; k < len; k++) boxes[k] = some_box();
    memset(out, FILL, sizeof out);
    pw_status status = pw_add(&world, boxes, len, &how, out, BATCH, &done);
    for (; count < len; count++) {
        uint32_t slot = 0;
        if (is_inverted(&boxes[count])) {
            wanted = PW_INVERTED;
            break;
        }
        while (now.lives[slot]) slot++;
        now.lives[slot] = true, now.given[slot]++, now.boxes++;
        now.live[slot] = (pw_live){boxes[count], how.masks, how.group};
        given[count] = handle_of(slot);
        handles[handle_count < MOST_HANDLES ? handle_count++ : below(MOST_HANDLES)] = given[count];
    }
    EXPECT(status == wanted && done == count && are_copied(out, BATCH, given, count, sizeof *out));
}

static void try_move(void) {
    pw_handle which[BATCH] = {0};
    pw_box boxes[BATCH] = {0};
    size_t len = below(BATCH + 1), count = 0, done = 99;
    pw_status wanted = PW_OK;
    for (size_t k = 0; k < len; k++) which[k] = some_handle(), boxes[k] = some_box();
    pw_status status = pw_move(&world, which, len, boxes, len, &done);
    for (; count < len && wanted == PW_OK; count++) {
        if (is_inverted(&boxes[count])) wanted = PW_INVERTED;
        else if (is_stale(which[count])) wanted = PW_STALE;
        else now.live[which[count].slot].body = boxes[count];
    }
    EXPECT(status == wanted && done == (wanted == PW_OK ? count : count - 1));
}

static void try_mask(void) {
    pw_handle which = some_handle();
    pw_masks masks = {some_group(), some_mask()};
    bool stale = is_stale(which);
    EXPECT(pw_mask(&world, which, masks) == (stale ? PW_STALE : PW_OK));
    if (!stale) now.live[which.slot].masks = masks;
}

static void try_regroup(void) {
    pw_handle which = some_handle();
    pw_group group = {below(3) ? 0 : 1 + below(3), below(3) == 0 ? 1 + below(2) : 0};
    bool stale = is_stale(which);
    EXPECT(pw_regroup(&world, which, group) == (stale ? PW_STALE : PW_OK));
    if (!stale) now.live[which.slot].group = group;
}

static void try_remove(void) {
    pw_handle which[BATCH] = {0};
    size_t len = below(4), count = 0, done = 99;
    for (size_t k = 0; k < len; k++) which[k] = some_handle();
    pw_status status = pw_remove(&world, which, len, &done);
    for (; count < len && !is_stale(which[count]); count++) now.lives[which[count].slot] = false, now.boxes--;
    EXPECT(status == (count < len ? PW_STALE : PW_OK) && done == count);
}

static bool same_live(const pw_live *a, const pw_live *b) {
    return memcmp(&a->body, &b->body, sizeof a->body) == 0 && memcmp(&a->masks, &b->masks, sizeof a->masks) == 0 &&
           a->group.owner == b->group.owner && (a->group.fixed != 0) == (b->group.fixed != 0);
}

static void try_get(void) {
    pw_handle which = some_handle();
    pw_live out, *live = &now.live[which.slot % MOST];
    memset(&out, FILL, sizeof out);
    pw_status status = ASKED(get, which, &out);
    if (is_stale(which)) {
        EXPECT(status == PW_STALE && is_filled(&out, sizeof out));
        return;
    }
    EXPECT(status == PW_OK && same_live(&out, live));
}

/* One slot, mostly of those that the model has. */
static void try_at(void) {
    uint32_t slot = below(8) ? below(MOST) : below(2) ? below(2 * PW_SLOTS) : (uint32_t)next();
    pw_handle handle;
    pw_live out;
    memset(&handle, FILL, sizeof handle);
    memset(&out, FILL, sizeof out);
    pw_status status = ASKED(at, slot, &handle, &out);
    if (slot >= MOST || !now.lives[slot]) {
        EXPECT(status == PW_STALE && is_filled(&handle, sizeof handle) && is_filled(&out, sizeof out));
        return;
    }
    EXPECT(status == PW_OK && same_handle(handle, handle_of(slot)) && same_live(&out, &now.live[slot]));
}

/* The changes from a number on, with some room. */
static void expect_changes(size_t from, size_t room) {
    static pw_told changes[2 * MOST_PAIRS + 1];
    size_t left = from < changed_count ? changed_count - from : 0, copied = 99;
    memset(changes, FILL, room * sizeof *changes);
    EXPECT(ASKED(changes, from, changes, room, &copied) == PW_OK && copied == (left < room ? left : room));
    EXPECT(are_copied(changes, room, changed + from, left, sizeof *changes));
}

/* The pairs that the last update ended with. */
static void expect_last_pairs(void) {
    static pw_pair last[MOST_PAIRS];
    size_t copied = 99;
    memset(last, FILL, sizeof last);
    EXPECT(ASKED(pairs, 0, last, MOST_PAIRS, &copied) == PW_OK && copied == now.last_count);
    EXPECT(are_copied(last, MOST_PAIRS, now.last, now.last_count, sizeof *last));
}

/* The pairs of now, from any number on, with any room, past the end too. The last frame's pairs and changes stay. */
static void try_pairs_now(void) {
    static pw_pair wanted[MOST_PAIRS], pairs[MOST_PAIRS];
    size_t all = pairs_of_model(wanted), room = below(3) ? below(40) : MOST_PAIRS, from = below(3) ? 0 : below(40), count = 99;
    memset(pairs, FILL, room * sizeof *pairs);
    EXPECT(pw_pairs_now(&world, from, pairs, room, &count) == PW_OK && count == all);
    EXPECT(are_copied(pairs, room, wanted + from, from < all ? all - from : 0, sizeof *pairs));
    expect_last_pairs();
    expect_changes(0, changed_count + 1);
    others_seen += all != now.last_count || memcmp(wanted, now.last, all * sizeof *wanted);
}

/* The pairs of now are asked for just before and just after, sometimes: what the structure finds for one it doesn't find again for the
 * other. All changes are read, with room for one more, and then some, from any number on. */
static void try_update(void) {
    pw_counts counts = {99, 99, 99};
    if (below(2)) try_pairs_now();
    pw_status status = pw_update(&world, &counts);
    end_frame_of_model();
    if (below(2)) try_pairs_now();
    EXPECT(status == PW_OK && counts.pairs == now.last_count && counts.events == told_count && counts.changes == changed_count);
    expect_changes(0, changed_count + 1);
    size_t from = below((uint32_t)changed_count + 2), room = below((uint32_t)changed_count + 2);
    expect_changes(from, room);
    pairs_seen += (long)now.last_count, over_seen += (long)(told_count - now.last_count);
}

/* From any number on, with any room, past the end too. */
static void try_lists(void) {
    static pw_pair pairs[MOST_PAIRS];
    static pw_told events[2 * MOST_PAIRS];
    size_t room = below(3) ? below(40) : MOST_PAIRS, from = below(3) ? 0 : below(40), copied = 99;
    size_t left = from < now.last_count ? now.last_count - from : 0;
    memset(pairs, FILL, room * sizeof *pairs);
    EXPECT(ASKED(pairs, from, pairs, room, &copied) == PW_OK && copied == (left < room ? left : room));
    EXPECT(are_copied(pairs, room, now.last + from, left, sizeof *pairs));
    left = from < told_count ? told_count - from : 0;
    memset(events, FILL, room * sizeof *events);
    EXPECT(ASKED(events, from, events, room, &copied) == PW_OK && copied == (left < room ? left : room));
    EXPECT(are_copied(events, room, told + from, left, sizeof *events));
    expect_changes(from, room);
}

static void expect_hits(pw_status status, const pw_handle *out, size_t room, size_t count, const struct hit *hits, size_t wanted) {
    pw_handle found[MOST];
    for (size_t k = 0; k < wanted; k++) {
        found[k] = handle_of(hits[k].slot);
        ungrouped_seen += now.live[hits[k].slot].masks.is == 0;
    }
    EXPECT(status == PW_OK && count == wanted && are_copied(out, room, found, wanted, sizeof *out));
    hits_seen += (long)wanted;
}

static void set_way(struct question *q, pw_point from, pw_point to) {
    q->way[0] = (int64_t)to.x - from.x, q->way[1] = (int64_t)to.y - from.y, q->way[2] = (int64_t)to.z - from.z;
}

static pw_point direction(void) {
    if (below(2)) return place();
    return (pw_point){(int32_t)below(7) - 3, (int32_t)below(7) - 3, (int32_t)below(7) - 3};
}

static void try_hits(void) {
    static const pw_point origin = {0, 0, 0};
    pw_query query = {below(4), some_mask(), place(), place()};
    struct question q = {query.mask, {query.a, query.a}, {0, 0, 0}, true};
    struct hit hits[MOST];
    pw_handle out[MOST];
    size_t room = below(2) ? MOST : below(5), count = 99;
    if (query.kind == PW_REGION) {
        pw_box region = some_box();
        query.a = region.lo, query.b = region.hi, q.body = region;
    } else if (query.kind == PW_RAY) {
        query.b = direction();
        q.has_end = false;
        set_way(&q, origin, query.b);
    } else if (query.kind == PW_SEGMENT) {
        set_way(&q, query.a, query.b);
    }
    memset(out, FILL, sizeof out);
    pw_status status = ASKED(hits, &query, out, room, &count);
    if (query.kind == PW_REGION && is_inverted(&q.body)) {
        EXPECT(status == PW_ARGUMENT && count == 0 && is_filled(out, sizeof out));
        return;
    }
    expect_hits(status, out, room, count, hits, model_hits(&q, false, hits));
}

/* The first of the boxes that are to be met, its place and its side. If none is, what was to be told is as before. */
static void expect_place(pw_status status, const pw_hit *out, size_t count, const struct question *q, const struct hit *hits,
                         size_t wanted) {
    uint32_t axis, side;
    EXPECT(status == PW_OK && count == (wanted > 0));
    if (wanted == 0) {
        EXPECT(is_filled(out, sizeof *out));
        return;
    }
    find_side(q, &now.live[hits->slot].body, hits, &axis, &side);
    EXPECT(same_handle(out->handle, handle_of(hits->slot)) && out->axis == axis && out->side == side);
    EXPECT(out->num >= 0 && out->den >= 1 && (wide)out->num * hits->parts == hits->number * out->den);
}

/* Where a way meets one box: asked as a ray or as a cast, whichever is given. */
static pw_status meet(const pw_ray *ray, const pw_cast *cast, pw_handle handle, pw_hit *out, size_t *count) {
    memset(out, FILL, sizeof *out);
    *count = 99;
    return ray ? ASKED(ray_meets, ray, handle, out, count) : ASKED(cast_meets, cast, handle, out, count);
}

/* Whether one hit comes no later on the way than another. */
static bool is_before(const pw_hit *a, const pw_hit *b) { return (wide)a->num * b->den <= (wide)b->num * a->den; }

/* Whether two hits are one, whose fractions may be written in two ways. */
static bool same_hit(const pw_hit *a, const pw_hit *b) {
    return same_handle(a->handle, b->handle) && is_before(a, b) && is_before(b, a) && a->axis == b->axis && a->side == b->side;
}

/* Each box of all hits, one by one: its place and its side are those of the model, the first is told as it was told alone, and none comes
 * before the one that is told before it. Some other box, whatever its groups are, is met or not as the model says. */
static void expect_meetings(const pw_ray *ray, const pw_cast *cast, const struct question *q, const pw_hit *first,
                            const struct hit *hits, size_t wanted) {
    pw_hit out, before = {{0, 0}, 0, 1, 0, 0};
    size_t count;
    for (size_t k = 0; k < wanted; k++) {
        pw_status status = meet(ray, cast, handle_of(hits[k].slot), &out, &count);
        expect_place(status, &out, count, q, &hits[k], 1);
        EXPECT(is_before(&before, &out) && (k > 0 || same_hit(&out, first)));
        before = out;
        meetings_seen++;
    }
    pw_handle which = some_handle();
    pw_status status = meet(ray, cast, which, &out, &count);
    if (is_stale(which)) {
        EXPECT(status == PW_STALE && count == 0 && is_filled(&out, sizeof out));
        return;
    }
    struct hit hit = {0, 1, which.slot};
    expect_place(status, &out, count, q, &hit, meets(q, &now.live[which.slot].body, &hit));
}

static void try_ray_hits(void) {
    static const pw_point origin = {0, 0, 0};
    pw_ray ray = {some_mask(), place(), direction()};
    struct question q = {ray.mask, {ray.from, ray.from}, {0, 0, 0}, false};
    struct hit hits[MOST];
    pw_handle out[MOST];
    size_t room = below(2) ? MOST : below(5), count = 99;
    set_way(&q, origin, ray.direction);
    memset(out, FILL, sizeof out);
    pw_status status = ASKED(ray_hits, &ray, out, room, &count);
    size_t wanted = model_hits(&q, true, hits);
    expect_hits(status, out, room, count, hits, wanted);
    pw_hit first;
    memset(&first, FILL, sizeof first);
    status = ASKED(ray_first, &ray, &first, &count);
    expect_place(status, &first, count, &q, hits, wanted);
    expect_meetings(&ray, NULL, &q, &first, hits, wanted);
    firsts_seen += wanted > 0;
}

static void try_cast_hits(void) {
    static const pw_point origin = {0, 0, 0};
    pw_cast cast = {some_mask(), some_box(), direction()};
    struct question q = {cast.mask, cast.body, {0, 0, 0}, true};
    struct hit hits[MOST];
    pw_handle out[MOST];
    size_t room = below(2) ? MOST : below(5), count = 99;
    set_way(&q, origin, cast.by);
    memset(out, FILL, sizeof out);
    pw_status status = ASKED(cast_hits, &cast, out, room, &count);
    size_t first_count = 99;
    pw_hit first;
    memset(&first, FILL, sizeof first);
    pw_status first_status = ASKED(cast_first, &cast, &first, &first_count);
    if (is_inverted(&cast.body)) {
        EXPECT(status == PW_INVERTED && count == 0 && is_filled(out, sizeof out));
        EXPECT(first_status == PW_INVERTED && first_count == 0 && is_filled(&first, sizeof first));
        EXPECT(meet(NULL, &cast, some_handle(), &first, &count) == PW_INVERTED && count == 0 && is_filled(&first, sizeof first));
        return;
    }
    size_t wanted = model_hits(&q, true, hits);
    expect_hits(status, out, room, count, hits, wanted);
    expect_place(first_status, &first, first_count, &q, hits, wanted);
    expect_meetings(NULL, &cast, &q, &first, hits, wanted);
    firsts_seen += wanted > 0;
}

static wide square_of(const pw_square *square) { return ((wide)square->high << 64) + square->low; }

/* The squares of the nearest boxes rise, and are those of the model, as that of any other box is. */
static void expect_squares(const pw_point *at, const struct hit *hits, size_t wanted) {
    pw_square out, before = {0, 0};
    for (size_t k = 0; k < wanted; k++) {
        memset(&out, FILL, sizeof out);
        EXPECT(ASKED(square_to, at, handle_of(hits[k].slot), &out) == PW_OK);
        EXPECT(square_of(&out) == hits[k].number && square_of(&before) <= square_of(&out));
        before = out;
        squares_seen++;
    }
    pw_handle which = some_handle();
    memset(&out, FILL, sizeof out);
    pw_status status = ASKED(square_to, at, which, &out);
    if (is_stale(which)) EXPECT(status == PW_STALE && is_filled(&out, sizeof out));
    else EXPECT(status == PW_OK && square_of(&out) == square_of_distance(&now.live[which.slot].body, at));
}

static void try_nearest(void) {
    pw_near near_to = {some_mask(), below(3) ? below(9) : below(2) ? MOST + below(9000) : 0xffffffffu, place()};
    struct hit hits[MOST];
    pw_handle out[MOST];
    size_t room = below(2) ? MOST : below(5), count = 99;
    memset(out, FILL, sizeof out);
    pw_status status = ASKED(nearest, &near_to, out, room, &count);
    size_t wanted = model_nearest(&near_to, hits);
    expect_hits(status, out, room, count, hits, wanted);
    expect_squares(&near_to.at, hits, wanted);
}

/* The squares of the nearest boxes to a box rise, from the one that was asked for on. They are those of the model, as that of any other
 * box is. */
static void expect_squares_apart(const pw_near_box *near_to, const struct hit *hits, size_t wanted) {
    pw_square out, before = near_to->from;
    for (size_t k = 0; k < wanted; k++) {
        memset(&out, FILL, sizeof out);
        EXPECT(ASKED(square_apart, &near_to->body, handle_of(hits[k].slot), &out) == PW_OK);
        EXPECT(square_of(&out) == hits[k].number && is_at_least(square_of(&out), &before));
        before = out;
    }
    pw_handle which = some_handle();
    memset(&out, FILL, sizeof out);
    pw_status status = ASKED(square_apart, &near_to->body, which, &out);
    if (is_stale(which)) EXPECT(status == PW_STALE && is_filled(&out, sizeof out));
    else EXPECT(status == PW_OK && square_of(&out) == square_apart(&near_to->body, &now.live[which.slot].body));
}

/* From 0 on, from the square of some live box on, from just behind it on, or from any. */
static pw_square some_square(const pw_box *body) {
    uint32_t kind = below(6);
    pw_handle which = some_handle();
    if (kind == 0) return (pw_square){next(), below(2) ? below(3) : next()};
    if (kind < 3 || is_stale(which) || is_inverted(body)) return (pw_square){0, 0};
    wide square = square_apart(body, &now.live[which.slot].body) + (kind == 5);
    return (pw_square){(uint64_t)square, (uint64_t)(square >> 64)};
}

static void try_nearest_box(void) {
    pw_near_box near_to = {some_mask(), below(3) ? below(9) : below(2) ? MOST + below(9000) : 0xffffffffu, some_box(), {0, 0}};
    near_to.from = some_square(&near_to.body);
    struct hit hits[MOST];
    pw_handle out[MOST];
    size_t room = below(2) ? MOST : below(5), count = 99;
    memset(out, FILL, sizeof out);
    pw_status status = ASKED(nearest_box, &near_to, out, room, &count);
    if (is_inverted(&near_to.body)) {
        pw_square square;
        EXPECT(status == PW_INVERTED && count == 0 && is_filled(out, sizeof out));
        memset(&square, FILL, sizeof square);
        EXPECT(ASKED(square_apart, &near_to.body, some_handle(), &square) == PW_INVERTED && is_filled(&square, sizeof square));
        return;
    }
    size_t wanted = model_nearest_box(&near_to, hits);
    expect_hits(status, out, room, count, hits, wanted);
    expect_squares_apart(&near_to, hits, wanted);
    beyond_seen += wanted > 0 && (near_to.from.low > 0 || near_to.from.high > 0);
}

/* Many questions at once, each beside the same one alone. Some are none, and end what is answered. */

static pw_query some_query(void) {
    pw_query query = {below(25) ? below(4) : 4 + below(9), some_mask(), place(), place()};
    if (query.kind == PW_REGION) {
        pw_box region = some_box();
        query.a = region.lo, query.b = region.hi;
    } else if (query.kind == PW_RAY) {
        query.b = direction();
    }
    return query;
}

static void try_hits_each(void) {
    static pw_handle out[BATCH * MOST], wanted[BATCH * MOST];
    pw_query queries[BATCH];
    size_t ends[BATCH + 1], len = below(BATCH + 1), room = below(2) ? BATCH * MOST : below(20), ends_room = below(8) ? BATCH : below(BATCH);
    size_t count = 99, answered = 0, found = 0, more = 0;
    pw_status status = PW_OK;
    for (size_t k = 0; k < BATCH; k++) queries[k] = some_query();
    memset(out, FILL, sizeof out);
    memset(ends, FILL, sizeof ends);
    pw_status told_status = ASKED(hits_each, queries, len, out, room, ends, ends_room, &count);
    if (ends_room < len) {
        EXPECT(told_status == PW_ARGUMENT && count == 0 && is_filled(out, sizeof out) && is_filled(ends, sizeof ends));
        return;
    }
    for (; answered < len; answered++) {
        status = ASKED(hits, &queries[answered], wanted + found, MOST, &more);
        if (status != PW_OK) break;
        found += more;
        EXPECT(ends[answered] == found);
    }
    EXPECT(told_status == status && count == answered && is_filled(ends + answered, sizeof ends - answered * sizeof *ends));
    EXPECT(are_copied(out, room, wanted, found, sizeof *out) && is_filled(out + room, sizeof out - room * sizeof *out));
    each_seen += (long)found;
}

/* What is told at a place, of which the single question is to tell the same. */
static void expect_first(const pw_hit *hit, const pw_hit *alone, size_t count) {
    EXPECT(count == 1 ? pw_has_hit(hit) && same_hit(hit, alone)
                      : !pw_has_hit(hit) && same_handle(hit->handle, PW_NO_HANDLE) && hit->num == 0 && hit->den == 1 &&
                            hit->axis == PW_NO_AXIS && hit->side == PW_LOWER);
    each_seen += count == 1;
}

/* Rays, or else moved boxes. */
static void try_first_each(bool are_rays) {
    pw_ray rays[BATCH];
    pw_cast casts[BATCH];
    pw_hit out[BATCH + 1], alone;
    size_t len = below(BATCH + 1), room = below(8) ? BATCH : below(BATCH), count = 99, answered = 0, met = 0;
    pw_status status = PW_OK;
    for (size_t k = 0; k < BATCH; k++) rays[k] = (pw_ray){some_mask(), place(), direction()};
    for (size_t k = 0; k < BATCH; k++) casts[k] = (pw_cast){some_mask(), some_box(), direction()};
    memset(out, FILL, sizeof out);
    pw_status told_status = are_rays ? ASKED(ray_first_each, rays, len, out, room, &count)
                                     : ASKED(cast_first_each, casts, len, out, room, &count);
    if (room < len) {
        EXPECT(told_status == PW_ARGUMENT && count == 0 && is_filled(out, sizeof out));
        return;
    }
    for (; answered < len; answered++) {
        status = are_rays ? ASKED(ray_first, &rays[answered], &alone, &met) : ASKED(cast_first, &casts[answered], &alone, &met);
        if (status != PW_OK) break;
        expect_first(&out[answered], &alone, met);
    }
    EXPECT(told_status == status && count == answered && is_filled(out + answered, sizeof out - answered * sizeof *out));
}

static uint64_t exchanges(void) {
    pw_world_info info = {0};
    EXPECT(pw_info(&world, &info) == PW_OK);
    return info.exchanges;
}

static void try_mark(void) {
    uint64_t counted = exchanges();
    if (marks == PW_MOST_MARKS) {
        EXPECT(pw_mark(&world) == PW_FULL);
        return;
    }
    EXPECT(pw_mark(&world) == PW_OK);
    exchanges_when_marked[marks] = counted;
    marked[marks++] = now;
}

/* Fewer than are held, all of them, or more, which is refused. */
static void try_forget(void) {
    uint32_t count = below(32) ? below(3) : below(PW_MOST_MARKS + 2);
    pw_status status = pw_forget(&world, count);
    EXPECT(status == (count <= marks ? PW_OK : PW_NO_MARK));
    if (status != PW_OK) return;
    marks -= count;
    memmove(marked, marked + count, marks * sizeof *marked);
    memmove(exchanges_when_marked, exchanges_when_marked + count, marks * sizeof *exchanges_when_marked);
}

static void try_back(void) {
    if (marks == 0) {
        EXPECT(pw_back(&world) == PW_NO_MARK);
        return;
    }
    EXPECT(pw_back(&world) == PW_OK);
    now = marked[--marks];
    EXPECT(exchanges() == exchanges_when_marked[marks]);
}

static void try_info(uint32_t structure) {
    pw_world_info info = {0};
    EXPECT(ASKED(info, &info) == PW_OK && info.structure == structure && info.spent == 0);
    EXPECT(info.boxes == now.boxes && info.frames == now.frames && info.marks == marks);
    EXPECT(structure == PW_SAP || info.exchanges == 0);
}

static void try_some_question(void) {
    switch (below(9)) {
    case 0: case 1: try_hits(); break;
    case 2: try_ray_hits(); break;
    case 3: try_cast_hits(); break;
    case 4: try_nearest(); break;
    case 5: try_nearest_box(); break;
    case 6: try_hits_each(); break;
    case 7: try_first_each(true); break;
    default: try_first_each(false); break;
    }
}

/* What a world tells without a search, which a reader of it tells too. */
static void try_some_reading(uint32_t structure) {
    switch (below(5)) {
    case 0: try_get(); break;
    case 1: try_at(); break;
    case 2: expect_last_pairs(); break;
    case 3: try_lists(); break;
    default: try_info(structure); break;
    }
    readings_seen += asker != NULL;
}

/* Some readers get the world, ask, and leave one by one: the last one gives it back, with all that it had. */
static void try_readers(uint32_t structure) {
    uint32_t reading = 1 + below(READERS), left = reading;
    pw_world_info info;
    EXPECT(pw_share(&world, &readers[0]) == PW_OK && pw_info(&world, &info) == PW_CLOSED);
    for (uint32_t k = 1; k < reading; k++) EXPECT(pw_join(&readers[below(k)], &readers[k]) == PW_OK);
    for (; left > 0; left--) {
        for (uint32_t questions = below(4); questions > 0; questions--) {
            asker = &readers[below(left)];
            below(3) ? try_some_question() : try_some_reading(structure);
        }
        uint32_t leaving = below(left);
        EXPECT(pw_unshare(&readers[leaving], &world) == (left == 1 ? PW_OK : PW_SHARED));
        pw_reader kept = readers[leaving];
        readers[leaving] = readers[left - 1], readers[left - 1] = kept;
    }
    asker = NULL;
    expect_last_pairs();
    expect_changes(0, changed_count + 1);
    shares_seen++;
}

/* Marks come about as often as they go, so that a long run holds no mark and all that there may be. */
static void try_some_call(uint32_t structure) {
    switch (below(22)) {
    case 0: case 1: try_add(); break;
    case 2: case 3: case 4: try_move(); break;
    case 5: below(2) ? try_mask() : try_regroup(); break;
    case 6: case 7: try_remove(); break;
    case 8: below(2) ? try_get() : try_at(); break;
    case 9: case 10: try_update(); break;
    case 11: below(2) ? try_lists() : try_pairs_now(); break;
    case 12: case 13: case 14: case 15: case 16: case 20: try_some_question(); break;
    case 21: try_readers(structure); break;
    case 17: below(8) < 5 ? try_mark() : try_back(); break;
    case 18: below(8) < 3 ? try_mark() : below(8) ? try_back() : try_forget(); break;
    default: try_info(structure); break;
    }
}

int main(int count, char **words) {
    long calls = count > 1 ? atol(words[1]) : 20000;
    for (uint32_t structure = PW_PLAIN; structure <= PW_SKIN; structure++) {
        seed = (count > 2 ? strtoull(words[2], NULL, 10) : 1) * 5 + structure;
        now = (struct model){0};
        marks = 0, told_count = changed_count = handle_count = 0;
        EXPECT(pw_open(&world, structure) == PW_OK);
        for (int k = 0; k < READERS; k++) EXPECT(pw_reader_open(&readers[k]) == PW_OK);
        for (long k = 0; k < calls; k++) try_some_call(structure);
        EXPECT(pw_close(&world) == PW_OK);
        for (int k = 0; k < READERS; k++) EXPECT(pw_reader_close(&readers[k]) == PW_OK);
    }
    printf("random_calls: %ld pairs, %ld over, %ld hits, %ld first hits\n", pairs_seen, over_seen, hits_seen, firsts_seen);
    printf("random_calls: %ld meetings, %ld squares, %ld times other pairs within a frame\n", meetings_seen, squares_seen, others_seen);
    printf("random_calls: %ld times some from a distance on, %ld answers of many questions at once, %ld worlds shared\n", beyond_seen,
           each_seen, shares_seen);
    EXPECT(pairs_seen > 0 && over_seen > 0 && hits_seen > 0 && firsts_seen > 0);
    EXPECT(meetings_seen > 0 && squares_seen > 0 && others_seen > 0);
    printf("random_calls: %ld times a box of no group was found, %ld readings by readers\n", ungrouped_seen, readings_seen);
    EXPECT(beyond_seen > 0 && each_seen > 0 && shares_seen > 0 && ungrouped_seen > 0 && readings_seen > 0);
    return tested("random_calls");
}
