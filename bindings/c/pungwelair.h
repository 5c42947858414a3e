/* Pungwelair's broad phase for programs in C and C++: which of many moving boxes meet, and which of them a question finds.
 *
 * A world has moving boxes under handles. It is proved that its answers are those of testing every live box, and every two of
 * them, whatever structure it keeps them in.
 *
 *     pw_world world = PW_WORLD_INIT;
 *     pw_open(&world, PW_TREE);                             // PW_GRID if most boxes move, PW_SKIN if by little in each tick
 *     pw_add(&world, boxes, n, &how, handles, n, &done);
 *     for (;;) {                                            // a tick
 *         pw_move(&world, moved, m, bodies, m, &done);      // what is elsewhere now
 *         pw_update(&world, &counts);                       // find the pairs
 *         pw_changes(&world, 0, changes, room, &copied);    // which began or are over
 *         pw_ray_first(&world, &ray, &hit, &count);         // ask
 *     }
 *     pw_close(&world);
 *
 * Every call gives a status. Whatever numbers a call is given, it does what it says or refuses: no number leads to undefined
 * behavior. A call that is refused changes nothing of the world except what its comment names, and the numbers that it tells
 * are 0 (of a batch: how many were done).
 *
 * What the caller owes, and nothing checks:
 *   - a pointer isn't null, also before a length of 0. It is aligned, and leads to as many items as the length says. What it
 *     leads to isn't written meanwhile, and doesn't overlap what another pointer of the same call leads to;
 *   - the two words of a pw_world or a pw_reader are zero, or those that the last call left there. A copy of an open one isn't
 *     another: use one of the two and forget the other;
 *   - a world is in one call at a time, also for questions, and so is a reader. Between two calls either may go to another thread,
 *     if a lock, a join or the like orders the calls. Different worlds and different readers may be in calls on different threads
 *     at once, also readers of one world (see pw_share): the library has no state of its own, takes no lock and starts no thread;
 *   - malloc, realloc and free are those of one allocator, which aligns to 16 and takes calls of several threads at once if the
 *     library does, and no call comes from a signal handler.
 *
 * If bindings/install has put the library somewhere, link by `pkg-config --libs pungwelair` or CMake's `pungwelair::pungwelair`.
 * Else link libpungwelair.a and pungwelair_heap.c (three functions over malloc, realloc and free). Costs are told for n live
 * boxes. */
#ifndef PUNGWELAIR_H
#define PUNGWELAIR_H

#include <stddef.h>
#include <stdint.h>
#include <string.h>

#ifdef __cplusplus
extern "C" {
#endif

/* The version, for #if and as a text. The shared library's soname has the major number: for a program that is linked already,
 * another major number is another library. */
#define PW_VERSION_MAJOR 0
#define PW_VERSION_MINOR 6
#define PW_VERSION_PATCH 3
#define PW_VERSION_QUOTED(major, minor, patch) #major "." #minor "." #patch
#define PW_VERSION_OF(major, minor, patch) PW_VERSION_QUOTED(major, minor, patch)
#define PW_VERSION PW_VERSION_OF(PW_VERSION_MAJOR, PW_VERSION_MINOR, PW_VERSION_PATCH)

/* The same as one number, 6003 for 0.6.3, which pw_version tells of the library. */
#define PW_VERSION_NUMBER (PW_VERSION_MAJOR * 1000000u + PW_VERSION_MINOR * 1000u + PW_VERSION_PATCH)

/* The most boxes that live at once. Slots are below it, so an array of this length has room for the answer to any question.
 * (There may be more pairs, events and changes.) */
#define PW_SLOTS 8192u

/* The most marks that a world holds. */
#define PW_MOST_MARKS 64u

/* A world. Zero words are a closed one. The words are the library's. */
typedef struct pw_world {
    uint32_t state;
    void *held;
} pw_world;
#define PW_WORLD_INIT {0, 0}

/* One of those that ask one world at once, each on a thread of its own: see pw_share. Zero words are a closed one. The words are the
 * library's. */
typedef struct pw_reader {
    uint32_t state;
    void *held;
} pw_reader;
#define PW_READER_INIT {0, 0}

/* What a call came to. */
typedef uint32_t pw_status;
enum {
    PW_OK = 0,
    PW_STALE = 1,         /* no live box has the handle, or is in the slot */
    PW_FULL = 2,          /* PW_SLOTS boxes live, or PW_MOST_MARKS marks are held */
    PW_NO_MEMORY = 3,     /* malloc gave no memory, and the step that ran out wasn't done: of a batch the steps before it were.
                             After pw_add, pw_move or pw_back a world over PW_PLAIN or PW_SAP may be spent, which pw_info tells;
                             one over PW_TREE, PW_GRID or PW_SKIN never is. A spent world keeps what it had: pw_get, pw_at,
                             pw_pairs, pw_events, pw_changes and pw_info tell its boxes, pairs, events, frames and marks, and
                             pw_ray_meets, pw_cast_meets, pw_square_to and pw_square_apart answer about its boxes, and so do
                             these by a reader. Each other call that would change it or ask it gives PW_NO_MEMORY, also by a
                             reader. Close it, open another one and add its boxes there. After any other call all is as before:
                             ask again. */
    PW_INVERTED = 4,      /* not a box: lo > hi on some axis */
    PW_CLOSED = 5,        /* the world isn't open, as while readers read it; or the reader isn't, or it reads no world */
    PW_ARGUMENT = 6,      /* no such structure, no such kind of question, a region whose lo > hi, lengths that don't agree,
                             pw_open or pw_reader_open of what is open, or pw_unshare into a world that is open */
    PW_EXHAUSTED = 7,     /* a number is at its end, which no game comes to. Each slot without a box was given 4,294,967,295
                             times, as many frames ended as 64 bits count, or over PW_SAP 2^62 exchanges were counted since the
                             last frame. */
    PW_NO_MARK = 8,       /* no mark is held to go back to, or fewer marks are held than are to be given up */
    PW_NOT_A_NUMBER = 9,  /* a float is a NaN */
    PW_OUT_OF_RANGE = 10, /* a float, rounded as the call says, is below -32,768 or above 32,767.99998, or it is an infinity */
    PW_SHARED = 11        /* the reader reads a world; after pw_unshare, other readers read on what it read */
};

/* What each call may give beside PW_OK. Each that takes a world or a reader, except pw_open and pw_reader_open, may give PW_CLOSED
 * too. Each question by a reader, and each reading by one, gives what the call without `reader_` gives.
 *
 *     pw_open                              PW_ARGUMENT, PW_NO_MEMORY
 *     pw_add                               PW_ARGUMENT, PW_INVERTED, PW_FULL, PW_EXHAUSTED, PW_NO_MEMORY
 *     pw_move                              PW_ARGUMENT, PW_INVERTED, PW_STALE, PW_EXHAUSTED, PW_NO_MEMORY
 *     pw_remove, pw_mask, pw_regroup       PW_STALE, PW_NO_MEMORY (2)
 *     pw_update                            PW_EXHAUSTED, PW_NO_MEMORY
 *     pw_hits, pw_hits_each                PW_ARGUMENT, PW_NO_MEMORY
 *     pw_cast_hits, pw_cast_first          PW_INVERTED, PW_NO_MEMORY
 *     pw_nearest_box                       PW_INVERTED, PW_NO_MEMORY
 *     pw_ray_hits, pw_ray_first            PW_NO_MEMORY
 *     pw_ray_first_each                    PW_ARGUMENT, PW_NO_MEMORY
 *     pw_cast_first_each                   PW_ARGUMENT, PW_INVERTED, PW_NO_MEMORY
 *     pw_nearest, pw_pairs_now             PW_NO_MEMORY
 *     pw_mark                              PW_FULL, PW_NO_MEMORY (1)
 *     pw_forget                            PW_NO_MARK, PW_NO_MEMORY (1)
 *     pw_back                              PW_NO_MARK, PW_NO_MEMORY
 *     pw_get, pw_at                        PW_STALE
 *     pw_ray_meets, pw_square_to           PW_STALE
 *     pw_cast_meets, pw_square_apart       PW_INVERTED, PW_STALE
 *     pw_pairs, pw_events, pw_changes      nothing else
 *     pw_info, pw_close                    nothing else
 *     pw_reader_open                       PW_ARGUMENT, PW_NO_MEMORY
 *     pw_reader_close                      PW_SHARED
 *     pw_share                             PW_SHARED, PW_NO_MEMORY
 *     pw_join                              PW_SHARED, PW_NO_MEMORY (3)
 *     pw_unshare                           PW_SHARED, PW_ARGUMENT
 *     pw_fix_below_32 and the like         PW_NOT_A_NUMBER, PW_OUT_OF_RANGE
 *     pw_box_around_32, pw_box_around_64   PW_NOT_A_NUMBER, PW_OUT_OF_RANGE, PW_INVERTED
 *
 * (1) of a spent world alone; (2) of a spent world, or while a mark is held; (3) if 2^63 readers read the world. Those with (1) or (3)
 * and those without PW_NO_MEMORY never want memory. */

/* How a world keeps its boxes. The answers are the same; the costs are not. */
enum {
    PW_PLAIN = 0, /* tests every two: for a few hundred boxes */
    PW_SAP = 1,   /* sweep and prune, for its count of exchanges: slow by far if boxes go far or are added often */
    PW_TREE = 2,  /* a dynamic tree of enlarged boxes that keeps its pairs: if few boxes move, or much is asked */
    PW_GRID = 3,  /* a hashed grid of levels: if most boxes move */
    PW_SKIN = 4   /* boxes in skins, a margin around each, over the tree, which hears only of those that leave it: if boxes move by
                     little in each tick, as bodies at rest or near it do */
};

/* What became of a pair. */
enum {
    PW_BEGIN = 0, /* it is new */
    PW_STAY = 1,  /* it was there in the frame before, too */
    PW_OVER = 2   /* it was there in the frame before, and isn't there now */
};

/* The kinds of pw_query. */
enum {
    PW_REGION = 0, /* which boxes meet the one from a to b */
    PW_POINT = 1,  /* which hold the point a */
    PW_RAY = 2,    /* which meet the ray from a with the direction b, which may be zero; it has no end */
    PW_SEGMENT = 3 /* which meet the segment from a to b */
};

/* Which side of a box, along an axis. */
enum {
    PW_LOWER = 0, /* the side at `lo`, whose normal points down */
    PW_UPPER = 1  /* the side at `hi`, whose normal points up */
};

/* The axis of a pw_hit whose way begins in the box and comes in by no side. */
#define PW_NO_AXIS 3u

/* A place or a displacement, in raw units of 1/65,536. */
typedef struct pw_point {
    int32_t x, y, z;
} pw_point;

/* A closed axis-aligned box. Boxes that touch meet. */
typedef struct pw_box {
    pw_point lo, hi;
} pw_box;

/* The groups that a box is in and those that it sees, a bit each. Two boxes pair if each sees a group that the other is in. A box with
 * `is` 0 is in no group: it pairs with no box, and a question finds it only if its mask is 0. */
typedef struct pw_masks {
    uint32_t is, sees;
} pw_masks;

/* Whose a box is (0: nobody's), and whether it is fixed (any number except 0). Boxes of one owner don't pair, nor do two fixed
 * ones. */
typedef struct pw_group {
    uint32_t owner, fixed;
} pw_group;

/* How boxes come: pw_seen_by_all() is what most have. */
typedef struct pw_new {
    pw_masks masks;
    pw_group group;
} pw_new;

/* What names a live box: its slot, and how often that slot was given before. A new box takes the least slot that no live box has,
 * so index your own arrays by it. A handle of a box that is gone stays stale for ever, unless pw_back undoes what was done since.
 * After pw_back the handles of boxes that came behind the mark are given again, to other boxes: forget them. */
typedef struct pw_handle {
    uint32_t slot, generation;
} pw_handle;

/* The handle of no box: one whose slot is PW_SLOTS or above is stale in every world. (Zero words are the first box's handle.) */
static const pw_handle PW_NO_HANDLE = {0xffffffffu, 0xffffffffu};

/* A live box. */
typedef struct pw_live {
    pw_box body;
    pw_masks masks;
    pw_group group;
} pw_live;

/* Two boxes that meet, a's slot below b's. */
typedef struct pw_pair {
    pw_handle a, b;
} pw_pair;

/* What became of a pair: PW_BEGIN, PW_STAY or PW_OVER. */
typedef struct pw_told {
    uint32_t event;
    pw_pair pair;
} pw_told;

/* How many pairs the frame has that pw_update ended, how many events, and how many changes: the events of pairs that began or are
 * over. */
typedef struct pw_counts {
    size_t pairs, events, changes;
} pw_counts;

/* A question about boxes, by their groups: PW_REGION, PW_POINT, PW_RAY or PW_SEGMENT. Here and below a question with the mask 0 looks at
 * no group: it finds every box, those in no group too. With any other mask it finds boxes that are in one of its groups. */
typedef struct pw_query {
    uint32_t kind, mask;
    pw_point a, b;
} pw_query;

/* A ray without end, for the boxes that `mask` asks for. A direction of zero asks for the boxes that hold `from`. */
typedef struct pw_ray {
    uint32_t mask;
    pw_point from, direction;
} pw_ray;

/* A box that is moved along a line, by a displacement, and meets boxes that `mask` asks for on its way. */
typedef struct pw_cast {
    uint32_t mask;
    pw_box body;
    pw_point by;
} pw_cast;

/* The boxes that are nearest to a place: at most `want`, of those that `mask` asks for. */
typedef struct pw_near {
    uint32_t mask, want;
    pw_point at;
} pw_near;

/* Where a ray or a moved box meets a box: at the place `num / den` of the way, exactly. That is 0 where the way begins, and 1 where it
 * ends, which a ray goes on past. The fraction need not be in lowest terms. `num` is at least 0 and `den` at least 1. `axis` is 0, 1 or 2
 * and `side` PW_LOWER or PW_UPPER: the box is entered there by its side that the way comes from. If it comes to several sides at one
 * place it is the one of the lowest axis. A way that begins on a side and goes in there has that side. If it begins in the box and comes
 * in by no side, `axis` is PW_NO_AXIS and `side` 0. */
typedef struct pw_hit {
    pw_handle handle;
    int64_t num, den;
    uint32_t axis, side;
} pw_hit;

/* The square of a distance, in raw units squared: high * 2^64 + low, exactly. */
typedef struct pw_square {
    uint64_t low, high;
} pw_square;

/* The boxes that are nearest to a box, from a distance on: at most `want`, of those that `mask` asks for and whose squared distance from
 * `body` is at least `from`. */
typedef struct pw_near_box {
    uint32_t mask, want;
    pw_box body;
    pw_square from;
} pw_near_box;

/* What a world is. `exchanges` are those of the endpoint lists since the last frame if it is over PW_SAP, and else 0. */
typedef struct pw_world_info {
    uint32_t structure, spent;
    uint32_t boxes, marks;
    uint64_t frames, exchanges;
} pw_world_info;

/* The bits of three floats, or of three doubles. */
typedef struct pw_bits_32 {
    uint32_t x, y, z;
} pw_bits_32;
typedef struct pw_bits_64 {
    uint64_t x, y, z;
} pw_bits_64;

/* The version of the library that runs: PW_VERSION_NUMBER of the header that it was built with. A program tells by it that the shared
 * library is the one which it was compiled for. */
uint32_t pw_version(void);

/* Opens a closed world, with no box. It takes some half a megabyte and what the structure takes (measured in
 * docs/PERFORMANCE.md). PW_ARGUMENT: it is open, or there is no such structure. PW_NO_MEMORY: it stays closed. */
pw_status pw_open(pw_world *world, uint32_t structure);

/* Closes a world and frees all its memory. It may be opened again. PW_CLOSED: it was closed. */
pw_status pw_close(pw_world *world);

/* Adds boxes in order, all with the masks and the group of `how`, up to the first that is refused, whose status it gives:
 * PW_INVERTED, PW_FULL, PW_EXHAUSTED or PW_NO_MEMORY. `done` tells how many were added. Their handles are out[0] to
 * out[done - 1], and the rest of `out` is as it was. If out_len < boxes_len it gives PW_ARGUMENT and adds no box. PW_SAP walks
 * its lists for each box (up to n exchanges an axis and end); the others take some log n steps. */
pw_status pw_add(pw_world *world, const pw_box *boxes, size_t boxes_len, const pw_new *how, pw_handle *out, size_t out_len,
                 size_t *done);

/* Moves boxes in order, each with its handle, up to the first that is refused: PW_INVERTED, PW_STALE, PW_EXHAUSTED or
 * PW_NO_MEMORY. `done` tells how many were moved. If the lengths differ it gives PW_ARGUMENT and moves no box. */
pw_status pw_move(pw_world *world, const pw_handle *handles, size_t handles_len, const pw_box *boxes, size_t boxes_len,
                  size_t *done);

/* Gives a box other masks: the next update has its pairs by them. PW_STALE. PW_NO_MEMORY, only while a mark is held: all is as
 * before. */
pw_status pw_mask(pw_world *world, pw_handle handle, pw_masks masks);

/* Gives a box another owner and fixed mark: the next update has its pairs by them. PW_STALE. PW_NO_MEMORY, only while a mark is
 * held: all is as before. */
pw_status pw_regroup(pw_world *world, pw_handle handle, pw_group group);

/* Removes boxes in order, up to the first that is refused: PW_STALE, or PW_NO_MEMORY, only while a mark is held. `done` tells how
 * many were removed. */
pw_status pw_remove(pw_world *world, const pw_handle *handles, size_t handles_len, size_t *done);

/* The live box that has a handle. PW_STALE, and `out` is as it was. One look-up; it also answers in a spent world. */
pw_status pw_get(pw_world *world, pw_handle handle, pw_live *out);

/* The live box in a slot, with its handle. A loop over the slots from 0 to PW_SLOTS - 1 reads all live boxes: to draw them, to
 * store them, or to add them to another world. PW_STALE: no live box is in the slot, as always from PW_SLOTS on, and `handle` and
 * `out` are as they were. One look-up; it also answers in a spent world. */
pw_status pw_at(pw_world *world, uint32_t slot, pw_handle *handle, pw_live *out);

/* Ends the frame: finds the pairs of the boxes as they stand and what became of each since the last frame, and tells how many
 * there are. They stay readable until the next update. If since the last update no box came, moved, got other masks or another
 * group, or went, and nobody went back, nothing is searched, nothing begins and nothing is over. That takes the same time however
 * many boxes and pairs there are. PW_EXHAUSTED, PW_NO_MEMORY: all is as before. */
pw_status pw_update(pw_world *world, pw_counts *counts);

/* Copies the pairs of the last frame from number `from` on, in order of a's slot and then of b's, as many as there is room for. It
 * tells how many those are: 0 if `from` is past the end. After pw_back they are those of the last frame before the mark. A handle
 * of a pair may be stale by now. */
pw_status pw_pairs(pw_world *world, size_t from, pw_pair *out, size_t out_len, size_t *copied);

/* Tells how many pairs the frame would have if it ended now, and copies those from number `from` on, in the order of pw_pairs, as many
 * as there is room for. `total` is that of all the pairs, whatever `from` and the room are. The frame goes on and the world is as
 * before: pw_pairs, pw_events and pw_changes tell what they told. Each call searches as pw_update does, so give it room for all; if
 * nothing was told since the last update it copies the pairs of that one. PW_NO_MEMORY: `out` is as before. */
pw_status pw_pairs_now(pw_world *world, size_t from, pw_pair *out, size_t out_len, size_t *total);

/* Copies what the last update told, from number `from` on: each of its pairs in order, PW_BEGIN or PW_STAY, and then in order those
 * that are over, PW_OVER. It copies as many as there is room for, and tells how many those are. After pw_back they stay what the
 * last update told. Events are made while they are copied, with a step for each before `from` too: read all by one call, or call
 * pw_changes. */
pw_status pw_events(pw_world *world, size_t from, pw_told *out, size_t out_len, size_t *copied);

/* The same without the pairs that stayed: from number `from` on, each pair that began in order, PW_BEGIN, and then in order those
 * that are over, PW_OVER. It takes a step for each up to the last one copied and no step for a pair that stayed. So an engine that
 * keeps pairs of its own reads this. After pw_back they, too, stay what the last update told. */
pw_status pw_changes(pw_world *world, size_t from, pw_told *out, size_t out_len, size_t *copied);

/* Tells how many live boxes meet a question (`total`), and copies the handles of the first of them, in order of slots, as many as there
 * is room for. PW_ARGUMENT: no such kind of question, or a region whose lo > hi. PW_NO_MEMORY. After both `out` is as before. */
pw_status pw_hits(pw_world *world, const pw_query *query, pw_handle *out, size_t out_len, size_t *total);

/* The same for the boxes that a ray meets, in the order in which it first meets them; those that it meets at one place come by
 * their slots. The order is exact: no rounding. Of the direction only its way counts, not its length. How far off each of them
 * is met, and by which side, pw_ray_meets tells. PW_NO_MEMORY. */
pw_status pw_ray_hits(pw_world *world, const pw_ray *ray, pw_handle *out, size_t out_len, size_t *total);

/* The same for the boxes that a moved box meets on its way, in the order in which it first meets them, and then by their slots.
 * Those that it touches before it moves come first, as the floor that it stands on. Where each of them is met, and by which side,
 * pw_cast_meets tells. PW_INVERTED: not a box, lo > hi on some axis. PW_NO_MEMORY. */
pw_status pw_cast_hits(pw_world *world, const pw_cast *cast, pw_handle *out, size_t out_len, size_t *total);

/* The nearest live boxes to a place, at most `want` and at most PW_SLOTS, in rising order of the square of their distance (0 for a
 * box that holds it) and then of their slots. The square pw_square_to tells. PW_NO_MEMORY. */
pw_status pw_nearest(pw_world *world, const pw_near *near_to, pw_handle *out, size_t out_len, size_t *total);

/* The same for a box, from a distance on: of the live boxes whose square of the distance from `body` is at least `from`, the nearest,
 * in rising order of that square (0 for a box that meets it) and then of their slots. The square pw_square_apart tells. With `from` 0
 * no box is too near. To go on behind an answer, ask from the square of its last box on: boxes as near as that are told again. The search
 * comes by boxes that are too near as well. PW_INVERTED: `body` is no box. PW_NO_MEMORY. */
pw_status pw_nearest_box(pw_world *world, const pw_near_box *near_to, pw_handle *out, size_t out_len, size_t *total);

/* Tells whether a ray meets a box (`count` is 1, or 0 and `out` is as before), and which it meets first, as pw_ray_hits would: where, and
 * by which side. It looks for no other hit, so over PW_TREE and PW_SKIN it passes by all that lies behind the first. PW_NO_MEMORY. */
pw_status pw_ray_first(pw_world *world, const pw_ray *ray, pw_hit *out, size_t *count);

/* The same for the box that a moved box meets first, as pw_cast_hits would. PW_INVERTED, PW_NO_MEMORY. */
pw_status pw_cast_first(pw_world *world, const pw_cast *cast, pw_hit *out, size_t *count);

/* The live boxes that meet each of many questions, as pw_hits would tell them one by one: the handles of all answers stand one answer
 * behind another in `out`, as many as there is room for. ends[k] tells how many there are up to the end of answer k, those without
 * room too, so answer k begins at ends[k - 1], and the first at 0. Questions are answered in order up to the first that is refused,
 * whose status it gives: PW_ARGUMENT or PW_NO_MEMORY. `done` tells how many were answered, all or those before it; the rest of `ends`
 * and of `out` is as before. If ends_len < queries_len it gives PW_ARGUMENT and asks nothing. The world keeps room for the handles of
 * all answers of a call. */
pw_status pw_hits_each(pw_world *world, const pw_query *queries, size_t queries_len, pw_handle *out, size_t out_len, size_t *ends,
                       size_t ends_len, size_t *done);

/* What each of many rays meets first, as pw_ray_first would tell it, each at its place of `out`. If a ray meets no box its place has
 * PW_NO_HANDLE, num 0, den 1, PW_NO_AXIS and PW_LOWER: pw_has_hit tells. Rays are answered in order up to the first that is refused, by
 * PW_NO_MEMORY. `done` tells how many were answered, and the rest of `out` is as before. If out_len < rays_len it gives PW_ARGUMENT and
 * asks nothing. */
pw_status pw_ray_first_each(pw_world *world, const pw_ray *rays, size_t rays_len, pw_hit *out, size_t out_len, size_t *done);

/* The same for moved boxes, as pw_cast_first would tell it. The first that is no box is refused by PW_INVERTED. */
pw_status pw_cast_first_each(pw_world *world, const pw_cast *casts, size_t casts_len, pw_hit *out, size_t out_len, size_t *done);

/* Tells whether a ray meets one live box, whatever groups the ray asks for (`count` is 1, or 0 and `out` is as before), and where and
 * by which side, as pw_ray_first tells of the first. It looks at no other box. PW_STALE: no live box has the handle, the count is 0
 * and `out` is as before. It takes no memory; it also answers in a spent world. */
pw_status pw_ray_meets(pw_world *world, const pw_ray *ray, pw_handle handle, pw_hit *out, size_t *count);

/* The same for a moved box. PW_INVERTED, which is asked first, PW_STALE. */
pw_status pw_cast_meets(pw_world *world, const pw_cast *cast, pw_handle handle, pw_hit *out, size_t *count);

/* The square of the distance of a place from a live box: 0 if the box holds it. PW_STALE, and `out` is as it was. It takes no memory; it
 * also answers in a spent world. */
pw_status pw_square_to(pw_world *world, const pw_point *at, pw_handle handle, pw_square *out);

/* The same for a box: the square of its distance from a live box, 0 if they meet. PW_INVERTED, which is asked first, PW_STALE, and `out`
 * is as it was. */
pw_status pw_square_apart(pw_world *world, const pw_box *body, pw_handle handle, pw_square *out);

/* Marks the world as it stands, for rollback. It takes no memory, so that PW_NO_MEMORY comes only of a spent world. PW_FULL:
 * PW_MOST_MARKS are held. */
pw_status pw_mark(pw_world *world);

/* Gives up the `count` oldest marks, which makes room for new ones. The world as it stands and the newer marks are as before, and
 * the older worlds can't be gone back to any more. So marks are a ring for a netcode that marks each tick and mostly goes on: if
 * as many are held as ticks may be wrong, forget 1 and mark. It takes no memory, so that PW_NO_MEMORY comes only of a spent world.
 * PW_NO_MARK: fewer are held, and no mark is given up. */
pw_status pw_forget(pw_world *world, uint32_t count);

/* Goes back to the newest mark, which is then gone. The live boxes, their handles and those of later boxes, the pairs of the last frame
 * and the numbers of frames and exchanges are exactly what they were. It takes a step for each change since. PW_NO_MARK. */
pw_status pw_back(pw_world *world);

/* What the world is. */
pw_status pw_info(pw_world *world, pw_world_info *out);

/* Readers ask one world at once, each on a thread of its own. A world is shared with a first reader, which others join. As long as any of
 * them reads it, it isn't in its two words and nothing changes it. The last one that leaves gives it back as it was. A tick with jobs:
 *
 *     pw_move(&world, ..), pw_update(&world, &counts);      // one thread changes the world
 *     pw_share(&world, &readers[0]);
 *     for (k = 1; k < n; k++) pw_join(&readers[0], &readers[k]);
 *     // n jobs ask, each by its reader: pw_reader_hits(&readers[k], ..). Wait for all of them.
 *     for (k = 0; k < n; k++) pw_unshare(&readers[k], &world);   // PW_SHARED, and PW_OK of the last: the world is open again
 *
 * Opens a closed reader, which reads no world. It takes a few words. Room for answers it takes when it asks, and keeps that from question
 * to question, also when it reads another world. PW_ARGUMENT: it is open. PW_NO_MEMORY: it stays closed. */
pw_status pw_reader_open(pw_reader *reader);

/* Closes a reader that reads no world, and frees its memory. It may be opened again. PW_CLOSED: it was closed. PW_SHARED: it reads a
 * world, and stays open. */
pw_status pw_reader_close(pw_reader *reader);

/* Gives an open world, with all that it has, to an open reader that reads none. The two words of the world are zero from then on: a call
 * with them gives PW_CLOSED, and another world may be opened or come back there. It copies no box. PW_CLOSED: the world or the reader
 * isn't open. PW_SHARED: the reader reads a world. PW_NO_MEMORY. After all three both are as before. */
pw_status pw_share(pw_world *world, pw_reader *reader);

/* Lets `other`, which is open and reads no world, read from now on what `reader` reads. Both are in this call, so neither is in another.
 * It takes no memory and the time is the same however many boxes there are. PW_CLOSED: one of them isn't open, or `reader` reads no world.
 * PW_SHARED: `other` reads one. */
pw_status pw_join(pw_reader *reader, pw_reader *other);

/* Lets a reader, which stays open, read no world from now on. PW_OK: it was the last that read its world, which is open again in `world`,
 * as it was when it was shared. PW_SHARED: others read on, and `world` stays closed. If several leave at once, on threads of their own,
 * just one of them gets PW_OK: give each a pw_world of its own for that. It takes no memory. PW_ARGUMENT: `world` is open. PW_CLOSED: it
 * isn't, and the reader isn't open or reads none. After both all is as before. */
pw_status pw_unshare(pw_reader *reader, pw_world *world);

/* The questions and what is read, by a reader: each is the call without `reader_` of the world that it reads, with the same answer,
 * statuses and cost. PW_CLOSED: the reader isn't open or reads no world. pw_pairs_now isn't here: ask it before the world is shared. */
pw_status pw_reader_hits(pw_reader *reader, const pw_query *query, pw_handle *out, size_t out_len, size_t *total);
pw_status pw_reader_ray_hits(pw_reader *reader, const pw_ray *ray, pw_handle *out, size_t out_len, size_t *total);
pw_status pw_reader_cast_hits(pw_reader *reader, const pw_cast *cast, pw_handle *out, size_t out_len, size_t *total);
pw_status pw_reader_nearest(pw_reader *reader, const pw_near *near_to, pw_handle *out, size_t out_len, size_t *total);
pw_status pw_reader_nearest_box(pw_reader *reader, const pw_near_box *near_to, pw_handle *out, size_t out_len, size_t *total);
pw_status pw_reader_ray_first(pw_reader *reader, const pw_ray *ray, pw_hit *out, size_t *count);
pw_status pw_reader_cast_first(pw_reader *reader, const pw_cast *cast, pw_hit *out, size_t *count);
pw_status pw_reader_hits_each(pw_reader *reader, const pw_query *queries, size_t queries_len, pw_handle *out, size_t out_len,
                              size_t *ends, size_t ends_len, size_t *done);
pw_status pw_reader_ray_first_each(pw_reader *reader, const pw_ray *rays, size_t rays_len, pw_hit *out, size_t out_len, size_t *done);
pw_status pw_reader_cast_first_each(pw_reader *reader, const pw_cast *casts, size_t casts_len, pw_hit *out, size_t out_len,
                                    size_t *done);
pw_status pw_reader_ray_meets(pw_reader *reader, const pw_ray *ray, pw_handle handle, pw_hit *out, size_t *count);
pw_status pw_reader_cast_meets(pw_reader *reader, const pw_cast *cast, pw_handle handle, pw_hit *out, size_t *count);
pw_status pw_reader_square_to(pw_reader *reader, const pw_point *at, pw_handle handle, pw_square *out);
pw_status pw_reader_square_apart(pw_reader *reader, const pw_box *body, pw_handle handle, pw_square *out);
pw_status pw_reader_get(pw_reader *reader, pw_handle handle, pw_live *out);
pw_status pw_reader_at(pw_reader *reader, uint32_t slot, pw_handle *handle, pw_live *out);
pw_status pw_reader_pairs(pw_reader *reader, size_t from, pw_pair *out, size_t out_len, size_t *copied);
pw_status pw_reader_events(pw_reader *reader, size_t from, pw_told *out, size_t out_len, size_t *copied);
pw_status pw_reader_changes(pw_reader *reader, size_t from, pw_told *out, size_t out_len, size_t *copied);
pw_status pw_reader_info(pw_reader *reader, pw_world_info *out);

/* The greatest raw number that is at most 65,536 times a float, and the least that is at least that, by the float's bits. -0 is 0.
 * PW_NOT_A_NUMBER, PW_OUT_OF_RANGE: `out` is as it was. */
pw_status pw_fix_below_32(uint32_t bits, int32_t *out);
pw_status pw_fix_above_32(uint32_t bits, int32_t *out);
pw_status pw_fix_below_64(uint64_t bits, int32_t *out);
pw_status pw_fix_above_64(uint64_t bits, int32_t *out);

/* The least box in raw units that holds a box of floats: the lower corner is rounded down and the upper one up, so boxes of floats
 * with a common point have boxes that meet. PW_NOT_A_NUMBER, PW_OUT_OF_RANGE, PW_INVERTED (a lower float above the upper one): the
 * first fault by axes decides, and `out` is as it was. */
pw_status pw_box_around_32(const pw_bits_32 *lo, const pw_bits_32 *hi, pw_box *out);
pw_status pw_box_around_64(const pw_bits_64 *lo, const pw_bits_64 *hi, pw_box *out);

/* Of floats as a program has them. */
static inline pw_status pw_box_around(const float lo[3], const float hi[3], pw_box *out) {
    pw_bits_32 low, high;
    memcpy(&low, lo, sizeof low);
    memcpy(&high, hi, sizeof high);
    return pw_box_around_32(&low, &high, out);
}
static inline pw_status pw_box_around_double(const double lo[3], const double hi[3], pw_box *out) {
    pw_bits_64 low, high;
    memcpy(&low, lo, sizeof low);
    memcpy(&high, hi, sizeof high);
    return pw_box_around_64(&low, &high, out);
}

/* The same, cut to the range: what is below it or above it, as an infinity, becomes its end. Bounds without end have a box so, as those
 * of a plane. A box that lies past the range becomes a flat one at the end, so boxes with a common point have boxes that meet, as above.
 * PW_NOT_A_NUMBER, PW_INVERTED: the first fault by axes decides, and `out` is as it was. */
static inline double pw_cut_to_range(double number) {
    const double least = -32768.0, most = 2147483647.0 / 65536.0;
    return number < least ? least : number > most ? most : number;
}
static inline pw_status pw_box_around_cut_double(const double lo[3], const double hi[3], pw_box *out) {
    double low[3], high[3];
    int axis;
    for (axis = 0; axis < 3; axis++) {
        /* Two numbers past one end are cut to one number, so what is inverted stays so. */
        int inverted = lo[axis] > hi[axis];
        low[axis] = inverted ? 1.0 : pw_cut_to_range(lo[axis]);
        high[axis] = inverted ? 0.0 : pw_cut_to_range(hi[axis]);
    }
    return pw_box_around_double(low, high, out);
}
static inline pw_status pw_box_around_cut(const float lo[3], const float hi[3], pw_box *out) {
    double low[3], high[3];
    int axis;
    for (axis = 0; axis < 3; axis++) {
        low[axis] = lo[axis];
        high[axis] = hi[axis];
    }
    return pw_box_around_cut_double(low, high, out);
}
static inline pw_status pw_fix_below(float number, int32_t *out) {
    uint32_t bits;
    memcpy(&bits, &number, sizeof bits);
    return pw_fix_below_32(bits, out);
}
static inline pw_status pw_fix_above(float number, int32_t *out) {
    uint32_t bits;
    memcpy(&bits, &number, sizeof bits);
    return pw_fix_above_32(bits, out);
}

static inline pw_status pw_fix_below_double(double number, int32_t *out) {
    uint64_t bits;
    memcpy(&bits, &number, sizeof bits);
    return pw_fix_below_64(bits, out);
}
static inline pw_status pw_fix_above_double(double number, int32_t *out) {
    uint64_t bits;
    memcpy(&bits, &number, sizeof bits);
    return pw_fix_above_64(bits, out);
}

/* From C11 on pw_fix_below and pw_fix_above take a double as the double that it is. As a float it may be past the number that is
 * asked for: 30000.99999 is 30001 there. A float and a whole number are taken as floats (each whole one within range is a float).
 * Another type, as a long double, is refused by the compiler. Before C11 and in C++ they are the functions above, to which a double
 * comes narrowed: call pw_fix_below_double, or in C++ fix_below and fix_above of pungwelair.hpp, which take either. */
#if !defined __cplusplus && defined __STDC_VERSION__ && __STDC_VERSION__ >= 201112L
#define pw_fix_below(number, out) _Generic((number) + 0.0f, float: pw_fix_below, double: pw_fix_below_double)((number), (out))
#define pw_fix_above(number, out) _Generic((number) + 0.0f, float: pw_fix_above, double: pw_fix_above_double)((number), (out))
#endif

/* How a box comes that nobody owns, that moves, and that every box sees: it is in the first group and sees all. */
static inline pw_new pw_seen_by_all(void) {
    pw_new how = {{1u, 0xffffffffu}, {0u, 0u}};
    return how;
}

/* Tells whether a ray meets a box, and which one first: the handle of pw_ray_first alone. */
static inline pw_status pw_first_hit(pw_world *world, const pw_ray *ray, pw_handle *first, size_t *count) {
    pw_hit hit;
    pw_status status = pw_ray_first(world, ray, &hit, count);
    if (*count > 0) *first = hit.handle;
    return status;
}

/* The place of a hit on the way, as the double that is nearest to its fraction: `from + pw_fraction(&hit) * direction` is where a ray
 * comes to the box, up to rounding. */
static inline double pw_fraction(const pw_hit *hit) { return (double)hit->num / (double)hit->den; }

/* Whether a place of pw_ray_first_each or pw_cast_first_each has a hit: 0 if nothing is met. */
static inline int pw_has_hit(const pw_hit *hit) { return hit->handle.slot < PW_SLOTS; }

/* The square of a distance in units squared, up to rounding: its root is the distance in units. */
static inline double pw_squared(const pw_square *square) {
    return (double)square->high * 4294967296.0 + (double)square->low / 4294967296.0;
}

#ifdef __cplusplus
}
#endif
#endif
