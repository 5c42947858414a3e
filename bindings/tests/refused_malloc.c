/* A fixed run over each structure, again and again, in which the heap refuses the first request, then the second, and so on until a
 * run has no request refused. What is answered after a refusal is compared with the run that had all memory. */
#include "expect.h"
#include "pungwelair.h"
#include <stdbool.h>
#include <stdlib.h>

enum { BOXES = 300, MORE = 30, MOVED = 150, ROOM = 8192, LOG = 1 << 20, MANY = 4 };

/* The heap, in place of pungwelair_heap.c. */
struct tried {
    bool ok;
    void *p;
};

static long requests, refused_request, refusals, blocks;
static char nothing;

static bool is_refused(void) {
    bool refused = requests++ == refused_request;
    refusals += refused;
    return refused;
}

struct tried rattle_alloc(size_t size, size_t align) {
    if (is_refused()) return (struct tried){false, &nothing};
    void *p = malloc(size ? size : align);
    if (!p) abort();
    blocks++;
    return (struct tried){true, p};
}

struct tried rattle_realloc(void *p, size_t kept, size_t size, size_t align) {
    (void)kept;
    if (is_refused()) return (struct tried){false, &nothing};
    p = realloc(p, size ? size : align);
    if (!p) abort();
    return (struct tried){true, p};
}

void rattle_dealloc(void *p) {
    blocks--;
    free(p);
}

/* What the first run of a structure, which has all memory, was answered. */
static unsigned char answers[LOG];
static size_t answer_at;
static bool is_first_run;

static void answered(const void *answer, size_t size) {
    if (answer_at + size > LOG) abort();
    if (is_first_run) memcpy(answers + answer_at, answer, size);
    else EXPECT(!memcmp(answers + answer_at, answer, size));
    answer_at += size;
}

static pw_world world = PW_WORLD_INIT;
static pw_reader readers[2];
/* The reader that asks, while the world is shared. */
static pw_reader *asker;
static pw_handle handles[BOXES + MORE];
static bool is_spent;
static long spent_worlds;
/* How often some of many questions were answered, and the others weren't. */
static long cut_short;

/* The lists of the last frame. */
static pw_pair pairs[ROOM];
static pw_told events[ROOM], changes[ROOM];
static size_t change_count;

/* A call says that memory was refused exactly if some was. */
#define TELLS(status, call)                                         \
    do {                                                            \
        long before = refusals;                                     \
        (status) = (call);                                          \
        EXPECT(((status) == PW_NO_MEMORY) == (refusals > before));  \
    } while (0)

/* A call that changes nothing if memory is refused: asked again, it answers. */
#define ASK(call)                                                   \
    do {                                                            \
        pw_status status;                                           \
        TELLS(status, call);                                        \
        if (status == PW_NO_MEMORY) status = (call);                \
        EXPECT(status == PW_OK);                                    \
    } while (0)

/* A call that asks for no memory. */
#define NEEDS_NONE(call)                                            \
    do {                                                            \
        long before = requests;                                     \
        EXPECT((call) == PW_OK && requests == before);              \
    } while (0)

/* If no frame ended since, the changes are those that were told last. */
static void expect_same_changes(void) {
    static pw_told again[ROOM];
    size_t copied;
    NEEDS_NONE(ASKED(changes, 0, again, ROOM, &copied));
    EXPECT(copied == change_count && !memcmp(again, changes, copied * sizeof *again));
}

/* What is read by a reader, of a spent world too: no memory is asked for. */
static void expect_readings(const pw_world_info *wanted) {
    static pw_pair last[ROOM];
    static pw_told all[ROOM];
    pw_world_info info;
    size_t copied;
    NEEDS_NONE(ASKED(info, &info));
    EXPECT(!memcmp(&info, wanted, sizeof info));
    NEEDS_NONE(ASKED(pairs, 0, last, ROOM, &copied));
    NEEDS_NONE(ASKED(events, 0, all, ROOM, &copied));
    expect_same_changes();
}

static pw_box box_of(int32_t k, int32_t shift) {
    int32_t x = k % 7 * 100 + shift, y = k / 7 % 7 * 100, z = k / 49 * 100 + shift / 2;
    return (pw_box){{x, y, z}, {x + 100 + k % 3, y + 90 + k % 5 * 5, z + 120}};
}

/* A box, where ways meet it, and how far off it is: no memory is asked for. A ray that ends at its lower corner comes in there, and so does the
 * corner if it is moved. */
static void meet_box(pw_handle handle, pw_point lo) {
    pw_point outside = {lo.x - 40, lo.y, lo.z};
    pw_ray ray = {0, outside, {40, 0, 0}}, away = {0, outside, {-40, 0, 0}};
    pw_cast cast = {0, {outside, outside}, {80, 0, 0}};
    pw_hit hits[2], none;
    pw_square square;
    pw_handle same;
    pw_live lives[2];
    size_t count;
    NEEDS_NONE(ASKED(get, handle, &lives[0]));
    NEEDS_NONE(ASKED(at, handle.slot, &same, &lives[1]));
    EXPECT(same.generation == handle.generation && !memcmp(&lives[0], &lives[1], sizeof *lives) && !memcmp(&lives[0].body.lo, &lo, sizeof lo));
    NEEDS_NONE(ASKED(ray_meets, &ray, handle, &hits[0], &count));
    EXPECT(count == 1 && hits[0].num == hits[0].den && hits[0].axis == 0 && hits[0].side == PW_LOWER);
    NEEDS_NONE(ASKED(cast_meets, &cast, handle, &hits[1], &count));
    EXPECT(count == 1 && hits[1].num * 2 == hits[1].den && hits[1].axis == 0 && hits[1].side == PW_LOWER);
    memset(&none, FILL, sizeof none);
    NEEDS_NONE(ASKED(ray_meets, &away, handle, &none, &count));
    EXPECT(count == 0 && is_filled(&none, sizeof none));
    NEEDS_NONE(ASKED(square_to, &outside, handle, &square));
    EXPECT(square.low == 1600 && square.high == 0);
    NEEDS_NONE(ASKED(square_apart, &cast.body, handle, &square));
    EXPECT(square.low == 1600 && square.high == 0);
}

/* The first box that lives, if one does. */
static bool first_live(pw_handle *handle, pw_live *live) {
    uint32_t slot = 0;
    while (slot < PW_SLOTS && pw_at(&world, slot, handle, live) == PW_STALE) slot++;
    return slot < PW_SLOTS;
}

static void meet(void) {
    pw_handle handle;
    pw_live live;
    if (first_live(&handle, &live)) meet_box(handle, live.body.lo);
}

/* Questions of a spent world, also by a reader. */
static void ask_spent_world(void) {
    pw_handle handle;
    pw_hit hit;
    pw_query query = {PW_POINT, ~0u, {0, 0, 0}, {0, 0, 0}};
    pw_ray ray = {~0u, {0, 0, 0}, {1, 0, 0}};
    pw_cast cast = {~0u, box_of(0, 0), {1, 0, 0}};
    pw_near near_to = {~0u, 1, {0, 0, 0}};
    pw_near_box near_box = {~0u, 1, box_of(0, 0), {0, 0}};
    size_t count, end = 99;
    EXPECT(ASKED(hits, &query, &handle, 1, &count) == PW_NO_MEMORY && count == 0);
    EXPECT(ASKED(ray_hits, &ray, &handle, 1, &count) == PW_NO_MEMORY && count == 0);
    EXPECT(ASKED(cast_hits, &cast, &handle, 1, &count) == PW_NO_MEMORY && count == 0);
    EXPECT(ASKED(nearest, &near_to, &handle, 1, &count) == PW_NO_MEMORY && count == 0);
    EXPECT(ASKED(nearest_box, &near_box, &handle, 1, &count) == PW_NO_MEMORY && count == 0);
    EXPECT(ASKED(ray_first, &ray, &hit, &count) == PW_NO_MEMORY && count == 0);
    EXPECT(ASKED(cast_first, &cast, &hit, &count) == PW_NO_MEMORY && count == 0);
    EXPECT(ASKED(hits_each, &query, 1, &handle, 1, &end, 1, &count) == PW_NO_MEMORY && count == 0 && end == 99);
    EXPECT(ASKED(ray_first_each, &ray, 1, &hit, 1, &count) == PW_NO_MEMORY && count == 0);
    EXPECT(ASKED(cast_first_each, &cast, 1, &hit, 1, &count) == PW_NO_MEMORY && count == 0);
}

/* It may be shared too, and comes back as spent as it was. */
static void share_spent_world(void) {
    pw_handle handle;
    pw_live live;
    pw_world_info info;
    bool has_box = first_live(&handle, &live);
    EXPECT(pw_info(&world, &info) == PW_OK && info.spent);
    EXPECT(pw_reader_open(&readers[0]) == PW_OK && pw_share(&world, &readers[0]) == PW_OK);
    asker = &readers[0];
    ask_spent_world();
    expect_readings(&info);
    if (has_box) meet_box(handle, live.body.lo);
    asker = NULL;
    EXPECT(pw_unshare(&readers[0], &world) == PW_OK && pw_reader_close(&readers[0]) == PW_OK);
    EXPECT(pw_info(&world, &info) == PW_OK && info.spent);
}

/* A spent world refuses each change and question, and tells that it is spent. It is closed, and another one takes its boxes. */
static void leave_spent_world(void) {
    pw_box body = box_of(0, 0);
    pw_new how = pw_seen_by_all();
    pw_handle handle;
    pw_counts counts;
    size_t count;
    is_spent = true;
    spent_worlds++;
    EXPECT(pw_add(&world, &body, 1, &how, &handle, 1, &count) == PW_NO_MEMORY && count == 0);
    EXPECT(pw_move(&world, handles, 1, &body, 1, &count) == PW_NO_MEMORY && count == 0);
    EXPECT(pw_remove(&world, handles, 1, &count) == PW_NO_MEMORY && count == 0);
    EXPECT(pw_mask(&world, handles[0], how.masks) == PW_NO_MEMORY && pw_regroup(&world, handles[0], how.group) == PW_NO_MEMORY);
    EXPECT(pw_update(&world, &counts) == PW_NO_MEMORY && counts.pairs == 0 && counts.events == 0 && counts.changes == 0);
    ask_spent_world();
    EXPECT(pw_pairs_now(&world, 0, pairs, ROOM, &count) == PW_NO_MEMORY && count == 0);
    EXPECT(pw_mark(&world) == PW_NO_MEMORY && pw_forget(&world, 0) == PW_NO_MEMORY && pw_back(&world) == PW_NO_MEMORY);
    /* What it had can be read still. */
    EXPECT(pw_pairs(&world, 0, pairs, ROOM, &count) == PW_OK);
    EXPECT(pw_events(&world, 0, events, ROOM, &count) == PW_OK);
    expect_same_changes();
    meet();
    share_spent_world();
    EXPECT(pw_close(&world) == PW_OK && blocks == 0);
    EXPECT(pw_open(&world, PW_PLAIN) == PW_OK);
    EXPECT(pw_add(&world, &body, 1, &how, &handle, 1, &count) == PW_OK && count == 1);
    EXPECT(pw_close(&world) == PW_OK);
}

static pw_world_info info_now(void) {
    pw_world_info info;
    EXPECT(pw_info(&world, &info) == PW_OK);
    return info;
}

static bool has_box(pw_handle handle, const pw_box *box) {
    pw_live live;
    return pw_get(&world, handle, &live) == PW_OK && !memcmp(&live.body, box, sizeof *box);
}

/* After a change, whether there is more to do for it: if memory was refused and the world isn't spent, the rest of it. Spent or not, the
 * world is as what was done has made it: so many boxes, and the frames and marks that it had. */
static bool goes_on(pw_status status, bool is_done, const pw_world_info *before, size_t boxes) {
    if (status != PW_NO_MEMORY) {
        EXPECT(status == PW_OK && is_done);
        return false;
    }
    pw_world_info info = info_now();
    EXPECT(info.boxes == boxes && info.frames == before->frames && info.marks == before->marks);
    EXPECT(!info.spent || info.structure == PW_PLAIN || info.structure == PW_SAP);
    if (info.spent) leave_spent_world();
    return !is_spent;
}

static void add(size_t first, size_t count, int32_t shift) {
    pw_box boxes[BOXES];
    pw_new how = {{3, ~0u}, {first ? 0 : 5, 0}};
    size_t at = 0, done;
    pw_status status;
    for (size_t k = 0; k < count; k++) boxes[k] = box_of((int32_t)(first + k), shift);
    pw_world_info before = info_now();
    do {
        TELLS(status, pw_add(&world, boxes + at, count - at, &how, handles + first + at, count - at, &done));
        at += done;
        if (status == PW_NO_MEMORY)
            for (size_t k = 0; k < at; k++) EXPECT(has_box(handles[first + k], &boxes[k]));
    } while (goes_on(status, at == count, &before, before.boxes + at));
}

static void move(size_t first, size_t count, int32_t shift) {
    pw_box boxes[BOXES];
    pw_live were[BOXES];
    size_t at = 0, done;
    pw_status status;
    for (size_t k = 0; k < count; k++) {
        boxes[k] = box_of((int32_t)(first + k), shift);
        EXPECT(pw_get(&world, handles[first + k], &were[k]) == PW_OK);
    }
    pw_world_info before = info_now();
    do {
        TELLS(status, pw_move(&world, handles + first + at, count - at, boxes + at, count - at, &done));
        at += done;
        if (status == PW_NO_MEMORY)
            for (size_t k = 0; k < count; k++) EXPECT(has_box(handles[first + k], k < at ? &boxes[k] : &were[k].body));
    } while (goes_on(status, at == count, &before, before.boxes));
}

static void remove_some(size_t first, size_t count) {
    size_t at = 0, done;
    pw_status status;
    pw_world_info before = info_now();
    do {
        TELLS(status, pw_remove(&world, handles + first + at, count - at, &done));
        at += done;
        EXPECT(status == PW_OK || before.marks > 0);
    } while (goes_on(status, at == count, &before, before.boxes - at));
}

static void mask(size_t k) {
    pw_status status;
    pw_world_info before = info_now();
    do TELLS(status, pw_mask(&world, handles[k], (pw_masks){2, 2}));
    while (goes_on(status, true, &before, before.boxes));
    EXPECT(status == PW_OK || before.marks > 0);
}

static void regroup(size_t k) {
    pw_status status;
    pw_world_info before = info_now();
    do TELLS(status, pw_regroup(&world, handles[k], (pw_group){9, 1}));
    while (goes_on(status, true, &before, before.boxes));
    EXPECT(status == PW_OK || before.marks > 0);
}

static void back(void) {
    pw_status status;
    pw_world_info before = info_now();
    do TELLS(status, pw_back(&world));
    while (goes_on(status, true, &before, before.boxes));
    if (!is_spent) expect_same_changes();
}

/* The pairs of now, with room for fewer. If memory is refused the room is as it was, and the last frame's lists stay either way. */
static void ask_pairs(void) {
    static pw_pair last[ROOM], again[ROOM], now[ROOM];
    size_t had, has, count;
    pw_status status;
    NEEDS_NONE(pw_pairs(&world, 0, last, ROOM, &had));
    memset(now, FILL, sizeof now);
    TELLS(status, pw_pairs_now(&world, 3, now, ROOM, &count));
    if (status == PW_NO_MEMORY) {
        EXPECT(count == 0 && is_filled(now, sizeof now));
        status = pw_pairs_now(&world, 3, now, ROOM, &count);
    }
    EXPECT(status == PW_OK && count > 3 && count < ROOM && is_filled(now + count - 3, (ROOM - count) * sizeof *now));
    answered(&count, sizeof count);
    answered(now, (count - 3) * sizeof *now);
    NEEDS_NONE(pw_pairs(&world, 0, again, ROOM, &has));
    EXPECT(has == had && !memcmp(last, again, had * sizeof *last));
    expect_same_changes();
}

static void update(void) {
    pw_counts counts;
    pw_status status;
    size_t copied;
    TELLS(status, pw_update(&world, &counts));
    if (status == PW_NO_MEMORY) {
        EXPECT(counts.pairs == 0 && counts.events == 0 && counts.changes == 0);
        expect_same_changes();
        status = pw_update(&world, &counts);
    }
    EXPECT(status == PW_OK);
    answered(&counts, sizeof counts);
    NEEDS_NONE(pw_pairs(&world, 0, pairs, ROOM, &copied));
    EXPECT(copied == counts.pairs);
    answered(pairs, copied * sizeof *pairs);
    NEEDS_NONE(pw_events(&world, 0, events, ROOM, &copied));
    EXPECT(copied == counts.events);
    answered(events, copied * sizeof *events);
    NEEDS_NONE(pw_changes(&world, 0, changes, ROOM, &change_count));
    EXPECT(change_count == counts.changes);
    answered(changes, change_count * sizeof *changes);
}

/* Many questions, which end if memory runs out: those answered before are as they are if all are asked again. */
static void ask_hits_each(const pw_query *queries) {
    static pw_handle some[MANY * (BOXES + MORE)], all[MANY * (BOXES + MORE)];
    size_t some_ends[MANY], all_ends[MANY], some_count, count;
    pw_status status;
    memset(some_ends, FILL, sizeof some_ends);
    TELLS(status, ASKED(hits_each, queries, MANY, some, MANY * (BOXES + MORE), some_ends, MANY, &some_count));
    EXPECT((status == PW_OK) == (some_count == MANY) && is_filled(some_ends + some_count, (MANY - some_count) * sizeof *some_ends));
    cut_short += some_count > 0 && some_count < MANY;
    memcpy(all, some, sizeof all);
    memcpy(all_ends, some_ends, sizeof all_ends);
    if (status == PW_NO_MEMORY) {
        status = ASKED(hits_each, queries, MANY, all, MANY * (BOXES + MORE), all_ends, MANY, &count);
        EXPECT(status == PW_OK && count == MANY && !memcmp(some_ends, all_ends, some_count * sizeof *all_ends));
        EXPECT(some_count == 0 || !memcmp(some, all, all_ends[some_count - 1] * sizeof *all));
    }
    EXPECT(status == PW_OK);
    answered(all_ends, sizeof all_ends);
    answered(all, all_ends[MANY - 1] * sizeof *all);
}

static pw_status ask_firsts(const pw_ray *rays, const pw_cast *casts, pw_hit *hits, size_t *count) {
    return rays ? ASKED(ray_first_each, rays, MANY, hits, MANY, count) : ASKED(cast_first_each, casts, MANY, hits, MANY, count);
}

static void ask_first_each(const pw_ray *rays, const pw_cast *casts) {
    pw_hit some[MANY], all[MANY];
    size_t some_count, count;
    pw_status status;
    memset(some, FILL, sizeof some);
    TELLS(status, ask_firsts(rays, casts, some, &some_count));
    EXPECT((status == PW_OK) == (some_count == MANY) && is_filled(some + some_count, (MANY - some_count) * sizeof *some));
    cut_short += some_count > 0 && some_count < MANY;
    memcpy(all, some, sizeof all);
    if (status == PW_NO_MEMORY) {
        status = ask_firsts(rays, casts, all, &count);
        EXPECT(status == PW_OK && count == MANY && !memcmp(some, all, some_count * sizeof *all));
    }
    EXPECT(status == PW_OK);
    answered(all, sizeof all);
}

static void ask(void) {
    pw_query queries[MANY] = {{PW_REGION, ~0u, {0, 0, 0}, {300, 300, 300}},
                           {PW_POINT, 1, {150, 50, 150}, {0, 0, 0}},
                           {PW_RAY, ~0u, {-9, 50, 50}, {3, 1, 2}},
                           {PW_SEGMENT, ~0u, {700, 700, 700}, {0, 0, 0}}};
    pw_ray ray = {~0u, {-9, 50, 50}, {5, 1, 1}};
    pw_cast cast = {~0u, {{0, 0, 0}, {50, 50, 50}}, {900, 900, 900}};
    pw_ray rays[MANY] = {ray, {~0u, {-9, 50, 50}, {-5, 1, 1}}, {~0u, {0, -9, 30}, {0, 5, 1}}, {1, {900, 900, 900}, {-1, -1, -1}}};
    pw_cast casts[MANY] = {cast, {~0u, {{-90, 0, 0}, {-80, 1, 1}}, {9, 0, 0}}, {0, cast.body, cast.by}, {~0u, cast.body, {0, 0, 0}}};
    pw_near near_to = {~0u, 50, {350, 350, 350}}, many_near = {~0u, 100, {350, 350, 350}};
    pw_near_box near_box = {~0u, 30, {{-90, -90, -90}, {0, 0, 0}}, {90000, 0}};
    pw_handle found[BOXES + MORE];
    pw_hit hits[2];
    size_t count;
    ask_hits_each(queries); /* first, so that room grows between its questions */
    for (int k = 0; k < MANY; k++) {
        ASK(ASKED(hits, &queries[k], found, BOXES + MORE, &count));
        answered(found, count * sizeof *found);
    }
    ASK(ASKED(ray_hits, &ray, found, BOXES + MORE, &count));
    answered(found, count * sizeof *found);
    ASK(ASKED(cast_hits, &cast, found, BOXES + MORE, &count));
    answered(found, count * sizeof *found);
    ASK(ASKED(nearest, &near_to, found, BOXES + MORE, &count));
    EXPECT(count == 50);
    answered(found, count * sizeof *found);
    ASK(ASKED(nearest, &many_near, found, BOXES + MORE, &count));
    EXPECT(count == 100);
    answered(found, count * sizeof *found);
    ASK(ASKED(nearest_box, &near_box, found, BOXES + MORE, &count));
    EXPECT(count == 30);
    answered(found, count * sizeof *found);
    ASK(ASKED(ray_first, &ray, &hits[0], &count));
    EXPECT(count == 1);
    ASK(ASKED(cast_first, &cast, &hits[1], &count));
    EXPECT(count == 1);
    answered(hits, sizeof hits);
    ask_first_each(rays, NULL);
    ask_first_each(NULL, casts);
}

/* Two readers are opened, get the world, and give it back; the one that joined asks all. If sharing is refused the world stays open and
 * may be shared again; to join, to read, to leave and to close asks for no memory. */
static void share_and_ask(void) {
    pw_world_info before = info_now(), info;
    pw_handle handle;
    pw_live live;
    bool has_box = first_live(&handle, &live);
    long asked;
    for (int k = 0; k < 2; k++) ASK(pw_reader_open(&readers[k]));
    ASK(pw_share(&world, &readers[0]));
    NEEDS_NONE(pw_join(&readers[0], &readers[1]));
    for (int k = 0; k < 2; k++) {
        asker = &readers[k];
        if (has_box) meet_box(handle, live.body.lo);
        expect_readings(&before);
    }
    ask();
    asker = NULL;
    asked = requests;
    EXPECT(pw_unshare(&readers[0], &world) == PW_SHARED && pw_info(&world, &info) == PW_CLOSED && requests == asked);
    NEEDS_NONE(pw_unshare(&readers[1], &world));
    for (int k = 0; k < 2; k++) NEEDS_NONE(pw_reader_close(&readers[k]));
    info = info_now();
    EXPECT(info.boxes == before.boxes && info.frames == before.frames && info.marks == before.marks);
    expect_same_changes();
}

static void see(void) {
    pw_live live[2];
    pw_world_info info;
    ASK(pw_get(&world, handles[0], &live[0]));
    ASK(pw_get(&world, handles[BOXES - 1], &live[1]));
    answered(live, sizeof live);
    ASK(pw_info(&world, &info));
    uint64_t fields[5] = {info.structure, info.boxes, info.frames, info.marks, info.exchanges};
    answered(fields, sizeof fields);
}

/* The steps of a run. Each of the changes may end it, with a spent world. The first half of the boxes has one owner and the second has
 * none, so some are pairs, of which some stay. */
static void fill(void) {
    add(0, MOVED, 0);
    if (!is_spent) add(MOVED, BOXES - MOVED, 0);
}
static void move_half(void) { move(0, MOVED, 30); }
static void mask_one(void) { mask(7); }
static void mark(void) { ASK(pw_mark(&world)); }
static void forget(void) { NEEDS_NONE(pw_forget(&world, 1)); }
static void move_behind_mark(void) { move(MOVED, MOVED, -40); }
static void mask_behind_mark(void) { mask(9); }
static void regroup_behind_mark(void) { regroup(11); }
static void remove_behind_mark(void) { remove_some(20, 30); }
static void add_behind_mark(void) { add(BOXES, MORE, 10); }
static void empty(void) { remove_some(0, BOXES); }

/* The way back leads over what came and went behind both marks, so the handles of `fill` name its boxes again. */
static void (*const steps[])(void) = {
    fill, ask_pairs, update, ask_pairs, ask, meet, mark, move_half, ask_pairs, update, mask_one, mark, forget, move_behind_mark,
    mask_behind_mark, regroup_behind_mark, update, mark, remove_behind_mark, add_behind_mark, ask_pairs, update, share_and_ask, ask, back,
    ask_pairs, ask, back, update, see, ask, meet, empty, update
};
enum { STEPS = sizeof steps / sizeof *steps };

/* One run, with one request refused or none. */
static void run(uint32_t structure) {
    requests = refusals = 0;
    answer_at = change_count = 0;
    is_spent = false;
    pw_status status;
    TELLS(status, pw_open(&world, structure));
    if (status == PW_NO_MEMORY) {
        pw_world_info info;
        EXPECT(pw_info(&world, &info) == PW_CLOSED && blocks == 0);
        status = pw_open(&world, structure);
    }
    EXPECT(status == PW_OK);
    for (int k = 0; k < STEPS && !is_spent; k++) steps[k]();
    if (!is_spent) EXPECT(pw_close(&world) == PW_OK);
    EXPECT(blocks == 0);
}

/* Marks as a ring, each with changes behind it: once its lists have grown no call asks for memory. */
static void ring(void) {
    enum { HELD = 8, TICKS = 5 * HELD };
    size_t done;
    pw_new how = pw_seen_by_all();
    refused_request = -1;
    requests = 0;
    EXPECT(pw_open(&world, PW_TREE) == PW_OK);
    for (int32_t k = 0; k < BOXES; k++) {
        pw_box body = box_of(k, 0);
        EXPECT(pw_add(&world, &body, 1, &how, &handles[k], 1, &done) == PW_OK);
    }
    for (int32_t tick = 0; tick < TICKS; tick++) {
        long before = requests;
        if (tick >= HELD) EXPECT(pw_forget(&world, 1) == PW_OK);
        EXPECT(pw_mark(&world) == PW_OK);
        for (int32_t k = 0; k < BOXES; k++) {
            pw_box body = box_of(k, tick);
            EXPECT(pw_move(&world, &handles[k], 1, &body, 1, &done) == PW_OK);
        }
        EXPECT(tick < HELD || requests == before);
    }
    EXPECT(info_now().marks == HELD && pw_close(&world) == PW_OK && blocks == 0);
}

/* What was asked before asks for no memory, since the room of a world and of a reader has grown. */
static void ask_again(void) {
    pw_ray ray = {~0u, {-9, 50, 50}, {5, 1, 1}};
    pw_cast cast = {~0u, {{0, 0, 0}, {50, 50, 50}}, {900, 900, 900}};
    pw_near near_to = {~0u, 64, {350, 350, 350}};
    pw_near all = {~0u, PW_SLOTS, {350, 350, 350}};
    pw_handle found[64];
    pw_hit hit;
    size_t count;
    ask();
    ASK(ASKED(nearest, &near_to, found, 64, &count));
    ASK(ASKED(nearest, &all, found, 64, &count));
    long before = requests;
    ASK(ASKED(ray_first, &ray, &hit, &count));
    ASK(ASKED(cast_first, &cast, &hit, &count));
    ASK(ASKED(nearest, &near_to, found, 64, &count));
    ASK(ASKED(nearest, &all, found, 64, &count));
    ask();
    EXPECT(requests == before);
}

static void grown_room(uint32_t structure) {
    refused_request = -1;
    is_first_run = true;
    requests = 0;
    answer_at = change_count = 0;
    EXPECT(pw_open(&world, structure) == PW_OK);
    fill();
    update();
    ask_again();
    EXPECT(pw_reader_open(&readers[0]) == PW_OK && pw_share(&world, &readers[0]) == PW_OK);
    asker = &readers[0];
    ask_again();
    asker = NULL;
    EXPECT(pw_unshare(&readers[0], &world) == PW_OK && pw_reader_close(&readers[0]) == PW_OK);
    EXPECT(pw_close(&world) == PW_OK && blocks == 0);
}

int main(void) {
    static const char *const names[] = {"plain", "sap", "tree", "grid", "skin"};
    for (uint32_t structure = PW_PLAIN; structure <= PW_SKIN; structure++) {
        refused_request = -1;
        is_first_run = true;
        run(structure);
        is_first_run = false;
        spent_worlds = cut_short = 0;
        refused_request = 0;
        do run(structure);
        while (refusals && ++refused_request);
        printf("%s: %ld requests, each refused once; %ld of them spent the world\n", names[structure], refused_request, spent_worlds);
        EXPECT(refused_request > 0 && cut_short > 0);
        grown_room(structure);
    }
    ring();
    return tested("refused_malloc");
}
