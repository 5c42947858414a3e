/* Four threads ask and read one world at once, each by its reader, by questions of all kinds in an order of its own. Each answer is
 * compared with the one that was told before the world was shared. Then all leave at once, and just one of them has the world, which is
 * changed and shared again, with readers that have gone to other threads. Further rounds ask nothing and leave alone, as nearly at once
 * as may be. Words: the number of rounds for each structure, and the seed.
 *
 * It is built with -fsanitize=thread if the compiler has that. The library itself isn't instrumented, so the sanitizer sees what this
 * program and the heap do, and what the library copies by memcpy: that no call needs more order than pungwelair.h asks for. That the
 * library's own reads are in no race shows by the answers alone. */
#define _POSIX_C_SOURCE 200809L
#include "expect.h"
#include "pungwelair.h"
#include <pthread.h>
#include <sched.h>
#include <stdatomic.h>
#include <stdlib.h>

enum { THREADS = 4, BOXES = 1500, QUESTIONS = 240, KINDS = 20, EACH = 3, KEPT = 40, LEAVES = 600 };

static pw_world world = PW_WORLD_INIT;
static pw_handle handles[BOXES];

/* Random numbers: splitmix64, of the main thread alone. */
static uint64_t seed;

static uint32_t below(uint32_t limit) {
    uint64_t z = seed += 0x9e3779b97f4a7c15u;
    z = (z ^ z >> 30) * 0xbf58476d1ce4e5b9u;
    z = (z ^ z >> 27) * 0x94d049bb133111ebu;
    return (uint32_t)((z ^ z >> 31) % limit);
}

static pw_point place(void) {
    pw_point at;
    at.x = (int32_t)below(4000), at.y = (int32_t)below(4000), at.z = (int32_t)below(4000);
    return at;
}

static pw_point way(void) {
    pw_point by;
    by.x = (int32_t)below(4001) - 2000, by.y = (int32_t)below(4001) - 2000, by.z = (int32_t)below(4001) - 2000;
    return by;
}

static pw_box box(int32_t most) {
    pw_point lo = place();
    return (pw_box){lo, {lo.x + (int32_t)below(200), lo.y + (int32_t)below(200), lo.z + most}};
}

/* A question of one of the kinds, which are the calls, and what it is told. */
struct question {
    uint32_t kind;
    pw_query queries[EACH];
    pw_ray rays[EACH];
    pw_cast casts[EACH];
    pw_near near_to;
    pw_near_box near_box;
    pw_handle handle;
    size_t from;
};
struct answer {
    uint32_t status, padding;
    size_t count, ends[EACH];
    pw_handle handles[KEPT];
    pw_hit hits[EACH];
    pw_square square;
    pw_live live;
    pw_pair pairs[KEPT];
    pw_told told[KEPT];
    pw_world_info info;
};

static struct question questions[QUESTIONS];
static struct answer answers[QUESTIONS];

static void make_question(struct question *q, uint32_t kind) {
    uint32_t mask = below(4) ? ~0u : below(3) ? 1u << below(3) : 0;
    q->kind = kind;
    for (int k = 0; k < EACH; k++) {
        q->queries[k] = (pw_query){below(4), mask, place(), way()};
        q->rays[k] = (pw_ray){mask, place(), way()};
        q->casts[k] = (pw_cast){mask, box(50), way()};
        if (q->queries[k].kind == PW_REGION) q->queries[k].b = q->queries[k].a, q->queries[k].b.x += 900, q->queries[k].b.z += 700;
    }
    q->near_to = (pw_near){mask, below(2) ? below(20) : below(200), place()};
    q->near_box = (pw_near_box){mask, below(2) ? below(20) : below(200), box(50), {(uint64_t)below(2) * below(4000000), 0}};
    q->handle = below(8) ? handles[below(BOXES)] : PW_NO_HANDLE;
    q->from = below(40);
    /* Some are refused, in the midst of others too. */
    if (below(10) == 0) q->queries[below(EACH)].kind = 4, q->casts[below(EACH)].body.lo.x = INT32_MAX, q->near_box.body.lo.y = INT32_MAX;
}

/* By a reader, or else of the world. What isn't told stays as it was, zero. */
static void ask(pw_reader *asker, const struct question *q, struct answer *a) {
    memset(a, 0, sizeof *a);
    switch (q->kind) {
    case 0: a->status = ASKED(hits, q->queries, a->handles, KEPT, &a->count); break;
    case 1: a->status = ASKED(ray_hits, q->rays, a->handles, KEPT, &a->count); break;
    case 2: a->status = ASKED(cast_hits, q->casts, a->handles, KEPT, &a->count); break;
    case 3: a->status = ASKED(nearest, &q->near_to, a->handles, KEPT, &a->count); break;
    case 4: a->status = ASKED(nearest_box, &q->near_box, a->handles, KEPT, &a->count); break;
    case 5: a->status = ASKED(ray_first, q->rays, a->hits, &a->count); break;
    case 6: a->status = ASKED(cast_first, q->casts, a->hits, &a->count); break;
    case 7: a->status = ASKED(hits_each, q->queries, EACH, a->handles, KEPT, a->ends, EACH, &a->count); break;
    case 8: a->status = ASKED(ray_first_each, q->rays, EACH, a->hits, EACH, &a->count); break;
    case 9: a->status = ASKED(cast_first_each, q->casts, EACH, a->hits, EACH, &a->count); break;
    case 10: a->status = ASKED(ray_meets, q->rays, q->handle, a->hits, &a->count); break;
    case 11: a->status = ASKED(cast_meets, q->casts, q->handle, a->hits, &a->count); break;
    case 12: a->status = ASKED(square_to, &q->near_to.at, q->handle, &a->square); break;
    case 13: a->status = ASKED(square_apart, &q->near_box.body, q->handle, &a->square); break;
    case 14: a->status = ASKED(get, q->handle, &a->live); break;
    case 15: a->status = ASKED(at, q->handle.slot, a->handles, &a->live); break;
    case 16: a->status = ASKED(pairs, q->from, a->pairs, KEPT, &a->count); break;
    case 17: a->status = ASKED(events, q->from, a->told, KEPT, &a->count); break;
    case 18: a->status = ASKED(changes, q->from, a->told, KEPT, &a->count); break;
    default: a->status = ASKED(info, &a->info); break;
    }
}

/* What a thread has of its own, and what it tells the main one at the end of a round. */
struct job {
    pthread_t thread;
    uint32_t number;
    pw_reader reader;
    pw_world back;
    pw_status left;
    long asked, wrong;
};

static struct job jobs[THREADS];
static bool is_over;
/* How many questions are asked in this round. */
static uint32_t questions_now;
/* The first is passed when all may ask, and the second when all have left. */
static pthread_barrier_t may_ask, have_left;

/* Nobody goes on before all threads are here. It is passed within fewer steps of each other than a barrier that sleeps. */
static atomic_uint arrived;

static void wait_at_gate(uint32_t round) {
    atomic_fetch_add(&arrived, 1);
    for (uint32_t tries = 1; atomic_load(&arrived) < round * THREADS; tries++)
        if (tries % 10000 == 0) sched_yield();
}

static void *work(void *given) {
    struct job *job = given;
    for (uint32_t round = 1;; round++) {
        struct answer answer;
        pthread_barrier_wait(&may_ask);
        if (is_over) return NULL;
        for (uint32_t k = 0; k < questions_now; k++) {
            /* 240 has no divisor in common with these. */
            static const uint32_t steps[THREADS] = {1, 7, 11, 239};
            uint32_t which = (k * steps[job->number] + 60 * job->number) % QUESTIONS;
            ask(&job->reader, &questions[which], &answer);
            job->asked++;
            job->wrong += memcmp(&answer, &answers[which], sizeof answer) != 0;
        }
        wait_at_gate(round);
        job->left = pw_unshare(&job->reader, &job->back);
        pthread_barrier_wait(&have_left);
    }
}

/* The world is changed, and tells the answers that are wanted in this round. */
static long statuses[PW_SHARED + 1], found;

static void change_and_ask(void) {
    static pw_box boxes[BOXES];
    pw_counts counts;
    size_t done;
    for (int k = 0; k < BOXES; k++) boxes[k] = box(100);
    EXPECT(pw_move(&world, handles, BOXES, boxes, BOXES, &done) == PW_OK && pw_update(&world, &counts) == PW_OK);
    for (uint32_t k = 0; k < QUESTIONS; k++) {
        make_question(&questions[k], k % KINDS);
        ask(NULL, &questions[k], &answers[k]);
        statuses[answers[k].status]++;
        found += (long)answers[k].count;
    }
}

/* All join the first, each by a reader that another thread had in the round before, ask, and leave: one of them has the world. */
static void share_round(uint32_t questions_asked) {
    int last = -1;
    questions_now = questions_asked;
    pw_reader first = jobs[0].reader;
    for (int k = 0; k + 1 < THREADS; k++) jobs[k].reader = jobs[k + 1].reader;
    jobs[THREADS - 1].reader = first;
    EXPECT(pw_share(&world, &jobs[0].reader) == PW_OK);
    for (int k = 1; k < THREADS; k++) EXPECT(pw_join(&jobs[k - 1].reader, &jobs[k].reader) == PW_OK);
    pthread_barrier_wait(&may_ask);
    pthread_barrier_wait(&have_left);
    for (int k = 0; k < THREADS; k++) {
        EXPECT(jobs[k].left == PW_SHARED || jobs[k].left == PW_OK);
        if (jobs[k].left != PW_OK) continue;
        EXPECT(last < 0);
        last = k;
    }
    EXPECT(last >= 0);
    if (last < 0) return;
    world = jobs[last].back;
    jobs[last].back = (pw_world)PW_WORLD_INIT;
}

static void open_with_boxes(uint32_t structure) {
    static pw_box boxes[BOXES];
    size_t done = 0;
    EXPECT(pw_open(&world, structure) == PW_OK);
    for (int group = 0; group < 3; group++) {
        /* The last are in no group. */
        pw_new how = {{group < 2 ? 1u << group : 0, ~0u}, {0, 0}};
        enum { THIRD = BOXES / 3 };
        for (int k = 0; k < THIRD; k++) boxes[k] = box(100);
        EXPECT(pw_add(&world, boxes, THIRD, &how, handles + group * THIRD, THIRD, &done) == PW_OK && done == THIRD);
    }
}

int main(int count, char **words) {
    long rounds = count > 1 ? atol(words[1]) : 12, asked = 0;
    seed = count > 2 ? strtoull(words[2], NULL, 10) : 1;
    pthread_barrier_init(&may_ask, NULL, THREADS + 1);
    pthread_barrier_init(&have_left, NULL, THREADS + 1);
    for (uint32_t k = 0; k < THREADS; k++) {
        jobs[k].number = k;
        EXPECT(pw_reader_open(&jobs[k].reader) == PW_OK);
        if (pthread_create(&jobs[k].thread, NULL, work, &jobs[k]) != 0) abort();
    }
    for (uint32_t structure = PW_PLAIN; structure <= PW_SKIN; structure++) {
        open_with_boxes(structure);
        for (long round = 0; round < rounds; round++) {
            change_and_ask();
            share_round(QUESTIONS);
        }
        for (int round = 0; round < LEAVES; round++) share_round(0);
        EXPECT(pw_close(&world) == PW_OK);
    }
    is_over = true;
    pthread_barrier_wait(&may_ask);
    for (int k = 0; k < THREADS; k++) {
        pthread_join(jobs[k].thread, NULL);
        EXPECT(jobs[k].wrong == 0 && jobs[k].asked == rounds * QUESTIONS * (PW_SKIN + 1));
        EXPECT(pw_reader_close(&jobs[k].reader) == PW_OK);
        asked += jobs[k].asked;
    }
    printf("threads: %ld questions by %d threads, %ld found in all by one\n", asked, THREADS, found);
    EXPECT(found > 0 && statuses[PW_OK] > 0 && statuses[PW_STALE] > 0 && statuses[PW_INVERTED] > 0 && statuses[PW_ARGUMENT] > 0);
    return tested("threads");
}
