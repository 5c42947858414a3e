// Times a frame in process: each structure of the library, and Bullet's dynamic tree, Embree, CGAL and Boost's R-tree if it is built with
// them, over the same moving boxes and the same questions. Text is nowhere. All answers are compared by a sum before any time is told.
//
// A frame is what an engine does that keeps something for each pair: it tells what moved, has the pairs found, and hears which began and
// which are over. Of the library these are pw_move, pw_update and pw_changes; of Bullet setAabb, calculateOverlappingPairs, and a callback
// that its pair cache calls for each pair that comes or goes. No list of all pairs is read in that time. Bullet's pairs are those of
// enlarged boxes, and some have parted already: which of them meet is found for the sum alone, outside of the time.
//
// What is asked, and how each engine answers, stands at `kinds` and at the engines. A peer that works in floats may differ from the exact
// answer by rounding, so its answers aren't compared one by one: their number is, to a thousandth. Bullet's segments meet enlarged boxes,
// and aren't compared at all.
//
// Embree and CGAL keep no pairs. Embree's tree over all boxes is refitted, or built anew, if a box moved, and is collided with itself,
// on one thread; CGAL intersects all boxes anew. Each pair that they tell is tested exactly. Boost's tree is asked alone.
//
//     in_process BOXES FRAMES ROUNDS [LOAD, KIND or -ENGINE..]
//         all loads and all kinds of question, or those that are named; without the engines whose names begin so: "-sap" "-tree, a"
//     in_process SCENE ROUNDS                           a scene of `add`, `move` and `frame` alone, as bench/physics.cpp writes them
//     in_process count LOAD ENGINE KIND BOXES QUESTIONS
//         asks one kind of one engine, whose name begins so, and tells no time: for callgrind, which counts what is inside of
//         `asked_alone` with --toggle-collect=asked_alone, and so no frame and no question that comes before
//     in_process world BOXES                            bytes that malloc gave to a world, and what readers cost
//     in_process calls BOXES ROUNDS                     what each call takes that asks nothing
//     in_process kinds                                  the names of the kinds
#include "pungwelair.h"
#include <algorithm>
#include <cmath>
#include <cstdint>
#include <cstdio>
#include <cstdlib>
#include <cstring>
#include <ctime>
#include <iterator>
#include <limits>
#include <malloc.h>
#include <memory>
#include <numeric>
#include <string>
#include <utility>
#include <vector>
#ifdef WITH_BULLET
#include <BulletCollision/BroadphaseCollision/btDbvtBroadphase.h>
#endif
#ifdef WITH_EMBREE
#include <embree3/rtcore.h>
#endif
#ifdef WITH_CGAL
#include <CGAL/Box_intersection_d/Box_d.h>
#include <CGAL/box_intersection_d.h>
#endif
#ifdef WITH_BOOST
#include <boost/geometry.hpp>
#include <boost/geometry/geometries/box.hpp>
#include <boost/geometry/geometries/point.hpp>
#include <boost/geometry/geometries/segment.hpp>
#include <boost/geometry/index/rtree.hpp>
#include <boost/iterator/function_output_iterator.hpp>
#endif

namespace {

constexpr int32_t unit = 65536;
constexpr uint32_t all_groups = 0xffffffffu;

// Numbers that are the same on each machine (splitmix64).
struct Dice {
    uint64_t state;
    uint64_t next() {
        uint64_t z = state += 0x9e3779b97f4a7c15u;
        z = (z ^ z >> 30) * 0xbf58476d1ce4e5b9u;
        z = (z ^ z >> 27) * 0x94d049bb133111ebu;
        return z ^ z >> 31;
    }
    // From lo to hi units.
    int32_t raw(double lo, double hi) {
        return int32_t((lo + (hi - lo) * double(next() >> 11) / 9007199254740992.0) * unit);
    }
    // The same, and not 0: peers divide by it.
    int32_t way(double most) {
        int32_t by = raw(-most, most);
        return by == 0 ? 1 : by;
    }
    bool chance(double share) { return double(next() >> 11) / 9007199254740992.0 < share; }
};

struct Load {
    const char *name;
    double room;        // boxes lie from -room to room, in units a cube root of their number
    double least, most; // sides in units
    bool by_powers;     // sides by powers of two from least to most
    bool flat;          // long and flat, in rows
    double share;       // of the boxes moves a frame
    double step;        // at most so far, in units
    int questions;      // of each kind a frame
};

const Load loads[] = {
    {"sparse", 4.0, 0.5, 1.5, false, false, 1.0, 0.5, 0},
    {"dense", 0.8, 0.5, 2.0, false, false, 1.0, 0.5, 0},
    {"still", 4.0, 0.5, 1.5, false, false, 0.03, 0.05, 0},
    {"mixed", 4.0, 0.06, 64.0, true, false, 0.3, 0.5, 0},
    {"rows", 2.0, 0.5, 1.0, false, true, 0.3, 0.5, 0},
    {"asked", 4.0, 0.5, 1.5, false, false, 0.03, 0.05, 250},
    {"crowd", 0.6, 0.5, 2.0, false, false, 0.03, 0.05, 250}, // a ray meets some ten boxes
};

struct Move {
    uint32_t slot;
    pw_box body;
};

// As many of each kind.
struct Questions {
    std::vector<pw_query> boxes, points, segments, shorts;
    // Points that are moved along the segments and along the short ones; boxes that are moved through the room, and by little.
    std::vector<pw_cast> along, along_shorts, casts, short_casts;
    std::vector<pw_ray> rays;
    std::vector<pw_near> near_1, near_8, near_64;
    std::vector<pw_box> bodies;
};

// All that is played: the boxes at first, and what moves and what is asked in each frame.
struct Play {
    std::vector<pw_box> first;
    std::vector<std::vector<Move>> moves;
    std::vector<Questions> questions;
};

int32_t moved(int32_t at, int32_t by) {
    return int32_t(std::min<int64_t>(std::max<int64_t>(int64_t(at) + by, INT32_MIN), INT32_MAX));
}

pw_box box_at(pw_point lo, const int32_t side[3]) {
    return {lo, {moved(lo.x, side[0]), moved(lo.y, side[1]), moved(lo.z, side[2])}};
}

pw_cast between(pw_point a, pw_point b) { return {all_groups, {a, a}, {b.x - a.x, b.y - a.y, b.z - a.z}}; }

Play made(const Load &load, int boxes, int frames, int questions) {
    // Questions that came later have numbers of their own, so that the loads stay as they were.
    Dice dice{42}, further{43};
    Play play;
    double room = load.room * std::cbrt(double(boxes));
    auto place_by = [&](Dice &by) { return pw_point{by.raw(-room, room), by.raw(-room, room), by.raw(-room, room)}; };
    auto place = [&] { return place_by(dice); };
    for (int i = 0; i < boxes; i++) {
        int32_t side[3];
        if (load.by_powers) {
            double longest = load.least * std::pow(2.0, double(dice.next() % uint64_t(1 + std::log2(load.most / load.least))));
            for (int32_t &s : side) s = dice.raw(longest / 2, longest);
        } else {
            for (int32_t &s : side) s = dice.raw(load.least, load.most);
        }
        if (load.flat) side[0] = dice.raw(20, 40), side[1] = dice.raw(0.05, 0.1);
        play.first.push_back(box_at(place(), side));
    }
    std::vector<pw_box> now = play.first;
    for (int f = 0; f < frames; f++) {
        play.moves.emplace_back(), play.questions.emplace_back();
        Questions &asked = play.questions.back();
        for (int i = 0; i < boxes; i++) {
            if (!dice.chance(load.share)) continue;
            int32_t x = dice.raw(-load.step, load.step), y = dice.raw(-load.step, load.step), z = dice.raw(-load.step, load.step);
            pw_box &b = now[i];
            b = {{moved(b.lo.x, x), moved(b.lo.y, y), moved(b.lo.z, z)}, {moved(b.hi.x, x), moved(b.hi.y, y), moved(b.hi.z, z)}};
            play.moves.back().push_back({uint32_t(i), b});
        }
        for (int q = 0; q < questions; q++) {
            pw_point a = place(), b = place();
            int32_t side[3] = {dice.raw(0.5, 8), dice.raw(0.5, 8), dice.raw(0.5, 8)};
            pw_box region = box_at(a, side);
            asked.boxes.push_back({PW_REGION, all_groups, region.lo, region.hi});
            asked.points.push_back({PW_POINT, all_groups, a, a});
            asked.segments.push_back({PW_SEGMENT, all_groups, a, b});
            asked.along.push_back(between(a, b));
            // A wheel or a sensor looks a few units far.
            pw_point c = place_by(further);
            pw_point d = {moved(c.x, further.way(4)), moved(c.y, further.way(4)), moved(c.z, further.way(4))};
            asked.shorts.push_back({PW_SEGMENT, all_groups, c, d});
            asked.along_shorts.push_back(between(c, d));
            asked.rays.push_back({all_groups, c, {further.way(1), further.way(1), further.way(1)}});
            int32_t body[3] = {further.raw(0.5, 1.5), further.raw(0.5, 1.5), further.raw(0.5, 1.5)};
            asked.casts.push_back({all_groups, box_at(a, body), between(a, b).by});
            asked.short_casts.push_back({all_groups, box_at(c, body), {further.way(8), further.way(8), further.way(8)}});
            asked.near_1.push_back({all_groups, 1, a});
            asked.near_8.push_back({all_groups, 8, a});
            asked.near_64.push_back({all_groups, 64, a});
            asked.bodies.push_back(box_at(a, body));
        }
    }
    return play;
}

// The boxes of a scene, whose handles are the numbers of its adds, and the moves of each frame behind the first.
Play read_scene(std::FILE *file) {
    Play play;
    std::vector<Move> moves;
    char line[256];
    bool is_first = true;
    auto body_of = [](const char *text) {
        int32_t raw[6];
        char *end = nullptr;
        for (int32_t &number : raw) number = int32_t(std::llround(std::strtod(text, &end) * unit)), text = end;
        return pw_box{{raw[0], raw[1], raw[2]}, {raw[3], raw[4], raw[5]}};
    };
    while (std::fgets(line, sizeof line, file)) {
        if (!std::strncmp(line, "add ", 4)) {
            play.first.push_back(body_of(line + 4));
        } else if (!std::strncmp(line, "move ", 5)) {
            moves.push_back({uint32_t(std::atoi(line + 5)), body_of(std::strchr(line + 5, ' '))});
        } else if (!std::strncmp(line, "frame", 5)) {
            if (!is_first) play.moves.push_back(moves), play.questions.emplace_back();
            is_first = false;
            moves.clear();
        }
    }
    return play;
}

uint64_t nanoseconds() {
    timespec t;
    clock_gettime(CLOCK_THREAD_CPUTIME_ID, &t);
    return uint64_t(t.tv_sec) * 1000000000u + uint64_t(t.tv_nsec);
}

// The answers of one kind: how many boxes were found, and a sum of them, which costs time and so is made in a round of its own.
struct Tally {
    bool checks;
    uint64_t count = 0, sum = 0;

    static uint64_t mixed(uint64_t slot) { return (slot + 1) * 0x9e3779b97f4a7c15u ^ slot << 7; }
    // In any order.
    void found(uint64_t slot) {
        count++;
        if (checks) sum += mixed(slot);
    }
    // One behind the other.
    void next(uint64_t slot) {
        count++;
        if (checks) sum = sum * 31 + mixed(slot);
    }
};

// The square of the distance of two boxes, in whole numbers.
[[maybe_unused]] uint64_t square_of(const pw_box &a, const pw_box &b) {
    auto apart = [](int64_t a_lo, int64_t a_hi, int64_t b_lo, int64_t b_hi) { return uint64_t(std::max<int64_t>({b_lo - a_hi, a_lo - b_hi, 0})); };
    uint64_t x = apart(a.lo.x, a.hi.x, b.lo.x, b.hi.x), y = apart(a.lo.y, a.hi.y, b.lo.y, b.hi.y), z = apart(a.lo.z, a.hi.z, b.lo.z, b.hi.z);
    return x * x + y * y + z * z;
}

template <typename Question> using All = const std::vector<Question> &;

// What is timed: each frame boxes move and the changes of pairs are heard, and questions are asked. What an engine can't answer it isn't
// asked.
struct Engine {
    virtual ~Engine() = default;
    virtual void add(const std::vector<pw_box> &boxes) = 0;
    virtual void move(const std::vector<Move> &moves) = 0;
    virtual void update() = 0;
    // Of the pairs that meet, once after each update.
    virtual uint64_t pairs_sum() { return 0; }
    // All boxes that each meets, in any order.
    virtual void hits(All<pw_query>, Tally &) {}
    // All in the order in which they are met.
    virtual void cast_hits(All<pw_cast>, Tally &) {}
    virtual void ray_hits(All<pw_ray>, Tally &) {}
    // The one that is met first.
    virtual void cast_first(All<pw_cast>, Tally &) {}
    virtual void ray_first(All<pw_ray>, Tally &) {}
    // The same by one call for all.
    virtual void cast_first_each(All<pw_cast>, Tally &) {}
    virtual void ray_first_each(All<pw_ray>, Tally &) {}
    // The sum is that of the squares of their distances, as of two boxes that are as far off either may be told.
    virtual void nearest(All<pw_near>, Tally &) {}
    // The same for the eight that are nearest to each body.
    virtual void nearest_8(All<pw_box>, Tally &) {}
};

// What is compared of an engine's answers.
enum Compared { not_asked, not_compared, nearly, exactly };

struct Kind {
    const char *name;
    enum Group { boxes, segments, ordered, firsts, each, casts, near, near_box } group;
    void (*ask)(Engine &, const Questions &, Tally &);
};

const Kind kinds[] = {
    {"box", Kind::boxes, [](Engine &e, const Questions &q, Tally &t) { e.hits(q.boxes, t); }},
    {"point", Kind::boxes, [](Engine &e, const Questions &q, Tally &t) { e.hits(q.points, t); }},
    // Between two places of the room.
    {"segment", Kind::segments, [](Engine &e, const Questions &q, Tally &t) { e.hits(q.segments, t); }},
    {"segment-ordered", Kind::ordered, [](Engine &e, const Questions &q, Tally &t) { e.cast_hits(q.along, t); }},
    {"segment-first", Kind::firsts, [](Engine &e, const Questions &q, Tally &t) { e.cast_first(q.along, t); }},
    {"segment-first-each", Kind::each, [](Engine &e, const Questions &q, Tally &t) { e.cast_first_each(q.along, t); }},
    // By at most 4 units along each axis: rays that end.
    {"short", Kind::segments, [](Engine &e, const Questions &q, Tally &t) { e.hits(q.shorts, t); }},
    {"short-ordered", Kind::ordered, [](Engine &e, const Questions &q, Tally &t) { e.cast_hits(q.along_shorts, t); }},
    {"short-first", Kind::firsts, [](Engine &e, const Questions &q, Tally &t) { e.cast_first(q.along_shorts, t); }},
    {"short-first-each", Kind::each, [](Engine &e, const Questions &q, Tally &t) { e.cast_first_each(q.along_shorts, t); }},
    // Rays without end, from anywhere in the room.
    {"ray", Kind::ordered, [](Engine &e, const Questions &q, Tally &t) { e.ray_hits(q.rays, t); }},
    {"ray-first", Kind::firsts, [](Engine &e, const Questions &q, Tally &t) { e.ray_first(q.rays, t); }},
    {"ray-first-each", Kind::each, [](Engine &e, const Questions &q, Tally &t) { e.ray_first_each(q.rays, t); }},
    // Boxes with sides from 0.5 to 1.5 units: between two places, and by at most 8 units along each axis. In order.
    {"cast", Kind::casts, [](Engine &e, const Questions &q, Tally &t) { e.cast_hits(q.casts, t); }},
    {"short-cast", Kind::casts, [](Engine &e, const Questions &q, Tally &t) { e.cast_hits(q.short_casts, t); }},
    {"near-1", Kind::near, [](Engine &e, const Questions &q, Tally &t) { e.nearest(q.near_1, t); }},
    {"near-8", Kind::near, [](Engine &e, const Questions &q, Tally &t) { e.nearest(q.near_8, t); }},
    {"near-64", Kind::near, [](Engine &e, const Questions &q, Tally &t) { e.nearest(q.near_64, t); }},
    // To a box of the same sides as those that are moved.
    {"near-box-8", Kind::near_box, [](Engine &e, const Questions &q, Tally &t) { e.nearest_8(q.bodies, t); }},
};
constexpr size_t kind_count = sizeof kinds / sizeof *kinds;

void must(pw_status status) {
    if (status != PW_OK) std::fprintf(stderr, "status %u\n", status), std::exit(1);
}

uint64_t pair_key(uint64_t a, uint64_t b) { return (std::min(a, b) << 13 | std::max(a, b)) * 0x9e3779b97f4a7c15u; }

struct Pungwelair final : Engine {
    pw_world world = PW_WORLD_INIT;
    bool each;
    std::vector<pw_handle> handles, whose, hits_of = std::vector<pw_handle>(PW_SLOTS);
    std::vector<pw_box> bodies;
    std::vector<pw_told> changes;
    size_t changed = 0;
    uint64_t sum = 0;

    Pungwelair(uint32_t structure, bool each) : each(each) { must(pw_open(&world, structure)); }
    ~Pungwelair() override { must(pw_close(&world)); }
    void add(const std::vector<pw_box> &boxes) override {
        handles.resize(boxes.size());
        pw_new how = pw_seen_by_all();
        size_t done;
        must(pw_add(&world, boxes.data(), boxes.size(), &how, handles.data(), handles.size(), &done));
    }
    void move(const std::vector<Move> &moves) override {
        size_t done;
        if (each) {
            for (const Move &m : moves) must(pw_move(&world, &handles[m.slot], 1, &m.body, 1, &done));
            return;
        }
        whose.clear(), bodies.clear();
        for (const Move &m : moves) whose.push_back(handles[m.slot]), bodies.push_back(m.body);
        if (!moves.empty()) must(pw_move(&world, whose.data(), whose.size(), bodies.data(), bodies.size(), &done));
    }
    void update() override {
        pw_counts counts;
        must(pw_update(&world, &counts));
        if (changes.size() < counts.changes + 1) changes.resize(counts.changes * 2 + 1);
        must(pw_changes(&world, 0, changes.data(), changes.size(), &changed));
    }
    // What began comes to the last sum and what is over goes, so that it is right only if each change was told.
    uint64_t pairs_sum() override {
        for (size_t i = 0; i < changed; i++) {
            uint64_t key = pair_key(changes[i].pair.a.slot, changes[i].pair.b.slot);
            sum += changes[i].event == PW_BEGIN ? key : 0 - key;
        }
        return sum;
    }
    void in_order(size_t count, Tally &tally) {
        if (!tally.checks) return void(tally.count += count);
        for (size_t i = 0; i < count; i++) tally.next(hits_of[i].slot);
    }
    void hits(All<pw_query> queries, Tally &tally) override {
        size_t count;
        for (const pw_query &query : queries) {
            must(pw_hits(&world, &query, hits_of.data(), hits_of.size(), &count));
            if (!tally.checks) tally.count += count;
            for (size_t i = 0; tally.checks && i < count; i++) tally.found(hits_of[i].slot);
        }
    }
    void cast_hits(All<pw_cast> casts, Tally &tally) override {
        size_t count;
        for (const pw_cast &cast : casts) {
            must(pw_cast_hits(&world, &cast, hits_of.data(), hits_of.size(), &count));
            in_order(count, tally);
        }
    }
    void ray_hits(All<pw_ray> rays, Tally &tally) override {
        size_t count;
        for (const pw_ray &ray : rays) {
            must(pw_ray_hits(&world, &ray, hits_of.data(), hits_of.size(), &count));
            in_order(count, tally);
        }
    }
    void cast_first(All<pw_cast> casts, Tally &tally) override {
        pw_hit hit;
        size_t count;
        for (const pw_cast &cast : casts) {
            must(pw_cast_first(&world, &cast, &hit, &count));
            if (count > 0) tally.next(hit.handle.slot);
        }
    }
    void ray_first(All<pw_ray> rays, Tally &tally) override {
        pw_hit hit;
        size_t count;
        for (const pw_ray &ray : rays) {
            must(pw_ray_first(&world, &ray, &hit, &count));
            if (count > 0) tally.next(hit.handle.slot);
        }
    }
#ifdef WITH_EACH
    std::vector<pw_hit> firsts;
    void firsts_of(size_t asked, size_t count, Tally &tally) {
        if (count != asked) std::fprintf(stderr, "%zu of %zu were answered\n", count, asked), std::exit(1);
        for (size_t i = 0; i < count; i++)
            if (firsts[i].handle.slot < PW_SLOTS) tally.next(firsts[i].handle.slot);
    }
    void cast_first_each(All<pw_cast> casts, Tally &tally) override {
        size_t count;
        firsts.resize(casts.size());
        must(pw_cast_first_each(&world, casts.data(), casts.size(), firsts.data(), firsts.size(), &count));
        firsts_of(casts.size(), count, tally);
    }
    void ray_first_each(All<pw_ray> rays, Tally &tally) override {
        size_t count;
        firsts.resize(rays.size());
        must(pw_ray_first_each(&world, rays.data(), rays.size(), firsts.data(), firsts.size(), &count));
        firsts_of(rays.size(), count, tally);
    }
#endif
    void nearest(All<pw_near> places, Tally &tally) override {
        size_t count;
        for (const pw_near &near_to : places) {
            must(pw_nearest(&world, &near_to, hits_of.data(), hits_of.size(), &count));
            tally.count += count;
            if (!tally.checks) continue;
            pw_square square;
            for (size_t i = 0; i < count; i++) must(pw_square_to(&world, &near_to.at, hits_of[i], &square)), tally.sum += square.low;
        }
    }
#ifdef WITH_NEAR_BOX
    void nearest_8(All<pw_box> bodies, Tally &tally) override {
        size_t count;
        for (const pw_box &body : bodies) {
            pw_near_box near_to = {all_groups, 8, body, {0, 0}};
            must(pw_nearest_box(&world, &near_to, hits_of.data(), hits_of.size(), &count));
            tally.count += count;
            if (!tally.checks) continue;
            pw_square square;
            for (size_t i = 0; i < count; i++) must(pw_square_apart(&world, &body, hits_of[i], &square)), tally.sum += square.low;
        }
    }
#endif
};

// A way of a peer in single precision: a box is moved as its lower corner, and meets boxes that are larger by its sides.
struct [[maybe_unused]] Way {
    float from[3], by[3], sides[3], end;

    explicit Way(const pw_query &s)
        : from{float(s.a.x), float(s.a.y), float(s.a.z)}, by{float(s.b.x - s.a.x), float(s.b.y - s.a.y), float(s.b.z - s.a.z)}, sides{0, 0, 0}, end(1) {}
    explicit Way(const pw_cast &c)
        : from{float(c.body.lo.x), float(c.body.lo.y), float(c.body.lo.z)}, by{float(c.by.x), float(c.by.y), float(c.by.z)},
          sides{float(c.body.hi.x - c.body.lo.x), float(c.body.hi.y - c.body.lo.y), float(c.body.hi.z - c.body.lo.z)}, end(1) {}
    // It ends behind all boxes.
    explicit Way(const pw_ray &r)
        : from{float(r.from.x), float(r.from.y), float(r.from.z)}, by{float(r.direction.x), float(r.direction.y), float(r.direction.z)}, sides{0, 0, 0} {
        end = 2e9f / std::max({std::fabs(by[0]), std::fabs(by[1]), std::fabs(by[2])});
    }
    // Where it comes to a box, and something behind `most` if not up to there.
    float entry(const pw_box &b, float most) const {
        const float lo[3] = {float(b.lo.x), float(b.lo.y), float(b.lo.z)}, hi[3] = {float(b.hi.x), float(b.hi.y), float(b.hi.z)};
        float enter = 0, leave = most;
        for (int k = 0; k < 3; k++) {
            float low = (lo[k] - sides[k] - from[k]) / by[k], high = (hi[k] - from[k]) / by[k];
            enter = std::max(enter, std::min(low, high));
            leave = std::min(leave, std::max(low, high));
        }
        return enter <= leave ? enter : std::numeric_limits<float>::infinity();
    }
};

// What a peer has met so far.
struct [[maybe_unused]] Met {
    std::vector<std::pair<float, uint32_t>> all;
    void put(float at, float end, uint32_t slot) {
        if (at <= end) all.emplace_back(at, slot);
    }
    void sorted_to(Tally &tally) {
        std::sort(all.begin(), all.end());
        for (auto &[at, slot] : all) tally.next(slot);
        all.clear();
    }
};

[[maybe_unused]] bool meet(const pw_box &a, const pw_box &b) {
    return a.lo.x <= b.hi.x && b.lo.x <= a.hi.x && a.lo.y <= b.hi.y && b.lo.y <= a.hi.y && a.lo.z <= b.hi.z && b.lo.z <= a.hi.z;
}

#ifdef WITH_BULLET
// Its pair cache keeps pairs of enlarged boxes, in single precision.
struct Bullet final : Engine {
    struct Change {
        bool begins;
        uint32_t a, b;
    };
    // What the cache calls for ghosts.
    struct Changes final : btOverlappingPairCallback {
        std::vector<Change> heard;
        btBroadphasePair *addOverlappingPair(btBroadphaseProxy *a, btBroadphaseProxy *b) override {
            heard.push_back({true, slot_of(a), slot_of(b)});
            return nullptr;
        }
        void *removeOverlappingPair(btBroadphaseProxy *a, btBroadphaseProxy *b, btDispatcher *) override {
            heard.push_back({false, slot_of(a), slot_of(b)});
            return nullptr;
        }
        void removeOverlappingPairsContainingProxy(btBroadphaseProxy *, btDispatcher *) override {}
    };
    Changes changes;
    btDbvtBroadphase tree;
    std::vector<pw_box> bodies;
    std::vector<btBroadphaseProxy *> proxies;
    int pairs = 0;

    Bullet() { tree.getOverlappingPairCache()->setInternalGhostPairCallback(&changes); }
    static btVector3 at(const pw_point &p) { return {float(p.x) / unit, float(p.y) / unit, float(p.z) / unit}; }
    static uint32_t slot_of(const btBroadphaseProxy *p) { return uint32_t(reinterpret_cast<uintptr_t>(p->m_clientObject)); }
    void add(const std::vector<pw_box> &boxes) override {
        bodies = boxes;
        for (size_t i = 0; i < boxes.size(); i++)
            proxies.push_back(tree.createProxy(at(boxes[i].lo), at(boxes[i].hi), 0, reinterpret_cast<void *>(i), 1, 1, nullptr));
    }
    ~Bullet() override {
        for (btBroadphaseProxy *p : proxies) tree.destroyProxy(p, nullptr);
    }
    void move(const std::vector<Move> &moves) override {
        for (const Move &m : moves) bodies[m.slot] = m.body, tree.setAabb(proxies[m.slot], at(m.body.lo), at(m.body.hi), nullptr);
    }
    void update() override {
        tree.calculateOverlappingPairs(nullptr);
    }
    uint64_t pairs_sum() override {
        for (const Change &change : changes.heard) pairs += change.begins ? 1 : -1;
        changes.heard.clear();
        btBroadphasePairArray &kept = tree.getOverlappingPairCache()->getOverlappingPairArray();
        if (pairs != kept.size()) std::fprintf(stderr, "bullet: a change wasn't heard\n"), std::exit(1);
        uint64_t sum = 0;
        for (int i = 0; i < kept.size(); i++) {
            uint32_t a = slot_of(kept[i].m_pProxy0), b = slot_of(kept[i].m_pProxy1);
            if (meet(bodies[a], bodies[b])) sum += pair_key(a, b);
        }
        return sum;
    }
    struct Boxes final : btBroadphaseAabbCallback {
        const Bullet &b;
        pw_box region;
        Tally &tally;
        Boxes(const Bullet &b, const pw_box &region, Tally &tally) : b(b), region(region), tally(tally) {}
        bool process(const btBroadphaseProxy *p) override {
            if (meet(b.bodies[slot_of(p)], region)) tally.found(slot_of(p));
            return true;
        }
    };
    struct Segment final : btBroadphaseRayCallback {
        uint64_t count = 0;
        bool process(const btBroadphaseProxy *) override { return count++, true; }
    };
    void hits(All<pw_query> queries, Tally &tally) override {
        for (const pw_query &query : queries) {
            if (query.kind == PW_SEGMENT) {
                Segment found;
                trace(found, Way(query));
                tally.count += found.count;
                continue;
            }
            Boxes found(*this, {query.a, query.b}, tally);
            tree.aabbTest(at(query.a), at(query.b), found);
        }
    }
    // Its tree tells each box that the way meets, as far as it was told at first: a callback can't make it shorter.
    void trace(btBroadphaseRayCallback &found, const Way &way) {
        auto units = [](const float raw[3], float times) { return btVector3(raw[0] * times, raw[1] * times, raw[2] * times); };
        btVector3 from = units(way.from, 1.0f / unit), by = units(way.by, way.end / unit);
        for (int k = 0; k < 3; k++) {
            found.m_rayDirectionInverse[k] = by[k] == 0 ? btScalar(BT_LARGE_FLOAT) : 1 / by[k];
            found.m_signs[k] = found.m_rayDirectionInverse[k] < 0;
        }
        found.m_lambda_max = 1;
        tree.rayTest(from, from + by, found, btVector3(0, 0, 0), units(way.sides, 1.0f / unit));
    }
    // Each is tested, since enlarged boxes were met.
    struct Ordered final : btBroadphaseRayCallback {
        const Bullet &b;
        const Way &way;
        Met &met;
        Ordered(const Bullet &b, const Way &way, Met &met) : b(b), way(way), met(met) {}
        bool process(const btBroadphaseProxy *p) override {
            uint32_t slot = slot_of(p);
            met.put(way.entry(b.bodies[slot], way.end), way.end, slot);
            return true;
        }
    };
    struct First final : btBroadphaseRayCallback {
        const Bullet &b;
        const Way &way;
        float best;
        uint32_t slot = UINT32_MAX;
        First(const Bullet &b, const Way &way) : b(b), way(way), best(way.end) {}
        bool process(const btBroadphaseProxy *p) override {
            float found = way.entry(b.bodies[slot_of(p)], best);
            if (found < best) best = found, slot = slot_of(p);
            return true;
        }
    };
    Met met;
    template <typename Question> void ordered(All<Question> questions, Tally &tally) {
        for (const Question &question : questions) {
            Way way(question);
            Ordered found(*this, way, met);
            trace(found, way);
            met.sorted_to(tally);
        }
    }
    template <typename Question> void first(All<Question> questions, Tally &tally) {
        for (const Question &question : questions) {
            Way way(question);
            First found(*this, way);
            trace(found, way);
            if (found.slot != UINT32_MAX) tally.next(found.slot);
        }
    }
    void cast_hits(All<pw_cast> casts, Tally &tally) override { ordered(casts, tally); }
    void ray_hits(All<pw_ray> rays, Tally &tally) override { ordered(rays, tally); }
    void cast_first(All<pw_cast> casts, Tally &tally) override { first(casts, tally); }
    void ray_first(All<pw_ray> rays, Tally &tally) override { first(rays, tally); }
};
#endif

// A peer that keeps no pairs: it finds all of them anew if a box moved, tests each exactly, and then sorts and compares them with the
// last ones, which tells what began and what is over. "pairs alone" leave that out of the time.
struct Searcher : Engine {
    bool hears_in_time, is_changed = true;
    std::vector<pw_box> bodies;
    std::vector<uint32_t> pairs, last, began, over; // a pair is the lower slot and 13 bits of the higher one
    uint64_t sum = 0;

    explicit Searcher(bool hears_in_time) : hears_in_time(hears_in_time) {}
    virtual void search() = 0;
    void add(const std::vector<pw_box> &boxes) override { bodies = boxes; }
    void move(const std::vector<Move> &moves) override {
        for (const Move &m : moves) bodies[m.slot] = m.body;
        is_changed |= !moves.empty();
    }
    void update() override {
        began.clear(), over.clear();
        if (!is_changed) return;
        pairs.clear();
        search();
        if (hears_in_time) hear();
    }
    void hear() {
        std::sort(pairs.begin(), pairs.end());
        std::set_difference(pairs.begin(), pairs.end(), last.begin(), last.end(), std::back_inserter(began));
        std::set_difference(last.begin(), last.end(), pairs.begin(), pairs.end(), std::back_inserter(over));
        std::swap(pairs, last);
    }
    uint64_t pairs_sum() override {
        if (is_changed && !hears_in_time) hear();
        is_changed = false;
        for (uint32_t pair : began) sum += pair_key(pair >> 13, pair & 8191);
        for (uint32_t pair : over) sum -= pair_key(pair >> 13, pair & 8191);
        return sum;
    }
};

#ifdef WITH_EMBREE
// The boxes as one geometry of the user's, whose primitives are the slots, in single precision. Coordinates are rounded to the nearest
// float, which turns no two of them round, so that boxes that meet are among the pairs.
struct Embree final : Searcher {
    RTCDevice device = rtcNewDevice("threads=1,user_threads=1");
    RTCScene scene = rtcNewScene(device);
    RTCGeometry geometry = rtcNewGeometry(device, RTC_GEOMETRY_TYPE_USER);

    Embree(RTCBuildQuality quality, bool hears_in_time) : Searcher(hears_in_time) {
        rtcSetSceneFlags(scene, RTC_SCENE_FLAG_DYNAMIC);
        rtcSetSceneBuildQuality(scene, RTC_BUILD_QUALITY_LOW);
        rtcSetGeometryBuildQuality(geometry, quality);
        rtcSetGeometryUserData(geometry, this);
        rtcSetGeometryBoundsFunction(geometry, bounds, nullptr);
        rtcSetGeometryIntersectFunction(geometry, intersect);
        rtcSetGeometryPointQueryFunction(geometry, nearer);
    }
    ~Embree() override { rtcReleaseGeometry(geometry), rtcReleaseScene(scene), rtcReleaseDevice(device); }
    static void bounds(const RTCBoundsFunctionArguments *asked) {
        const pw_box &b = static_cast<Embree *>(asked->geometryUserPtr)->bodies[asked->primID];
        RTCBounds &out = *asked->bounds_o;
        out.lower_x = float(b.lo.x), out.lower_y = float(b.lo.y), out.lower_z = float(b.lo.z);
        out.upper_x = float(b.hi.x), out.upper_y = float(b.hi.y), out.upper_z = float(b.hi.z);
    }
    struct Asked {
        RTCIntersectContext context;
        const Way &way;
        Met *met;
        explicit Asked(const Way &way, Met *met) : way(way), met(met) { rtcInitIntersectContext(&context); }
    };
    // A box that is met sooner than those so far makes the ray shorter, if only the first is asked for.
    static void intersect(const RTCIntersectFunctionNArguments *asked) {
        if (!asked->valid[0]) return;
        const pw_box &b = static_cast<Embree *>(asked->geometryUserPtr)->bodies[asked->primID];
        const Asked &question = *reinterpret_cast<Asked *>(asked->context);
        RTCRayHit &found = *reinterpret_cast<RTCRayHit *>(asked->rayhit);
        float place = question.way.entry(b, found.ray.tfar);
        if (question.met)
            question.met->put(place, found.ray.tfar, asked->primID);
        else if (place < found.ray.tfar)
            found.ray.tfar = place, found.hit.primID = asked->primID, found.hit.geomID = asked->geomID;
    }
    RTCRayHit trace(const Way &way, Met *met) {
        Asked asked(way, met);
        RTCRayHit found{};
        found.ray.org_x = way.from[0], found.ray.org_y = way.from[1], found.ray.org_z = way.from[2];
        found.ray.dir_x = way.by[0], found.ray.dir_y = way.by[1], found.ray.dir_z = way.by[2];
        found.ray.tfar = way.end, found.ray.mask = all_groups;
        found.hit.geomID = found.hit.primID = RTC_INVALID_GEOMETRY_ID;
        rtcIntersect1(scene, &asked.context, &found);
        return found;
    }
    Met met;
    template <typename Question> void ordered(All<Question> questions, Tally &tally) {
        for (const Question &question : questions) trace(Way(question), &met), met.sorted_to(tally);
    }
    template <typename Question> void first(All<Question> questions, Tally &tally) {
        for (const Question &question : questions) {
            RTCRayHit found = trace(Way(question), nullptr);
            if (found.hit.geomID != RTC_INVALID_GEOMETRY_ID) tally.next(found.hit.primID);
        }
    }
    // Segments alone.
    void hits(All<pw_query> queries, Tally &tally) override {
        for (const pw_query &query : queries) {
            trace(Way(query), &met);
            for (auto &[at, slot] : met.all) tally.found(slot);
            met.all.clear();
        }
    }
    // Of points alone: it has no moved boxes.
    void cast_hits(All<pw_cast> casts, Tally &tally) override { ordered(casts, tally); }
    void ray_hits(All<pw_ray> rays, Tally &tally) override { ordered(rays, tally); }
    void cast_first(All<pw_cast> casts, Tally &tally) override { first(casts, tally); }
    void ray_first(All<pw_ray> rays, Tally &tally) override { first(rays, tally); }
    // The nearest so far, the farthest of them on top.
    struct Nearest {
        const Embree &e;
        size_t want;
        std::vector<std::pair<float, uint32_t>> &best;
    };
    // A sphere around the place shrinks to the farthest of those that are wanted.
    static bool nearer(RTCPointQueryFunctionArguments *asked) {
        Nearest &n = *static_cast<Nearest *>(asked->userPtr);
        const pw_box &b = n.e.bodies[asked->primID];
        auto apart = [](float x, float lo, float hi) { return std::max({lo - x, x - hi, 0.0f}); };
        float x = apart(asked->query->x, float(b.lo.x), float(b.hi.x)), y = apart(asked->query->y, float(b.lo.y), float(b.hi.y)),
              z = apart(asked->query->z, float(b.lo.z), float(b.hi.z)), square = x * x + y * y + z * z;
        if (n.best.size() == n.want) {
            if (square >= n.best.front().first) return false;
            std::pop_heap(n.best.begin(), n.best.end()), n.best.pop_back();
        }
        n.best.emplace_back(square, asked->primID), std::push_heap(n.best.begin(), n.best.end());
        if (n.best.size() < n.want) return false;
        asked->query->radius = std::sqrt(n.best.front().first);
        return true;
    }
    std::vector<std::pair<float, uint32_t>> best;
    void nearest(All<pw_near> places, Tally &tally) override {
        for (const pw_near &near_to : places) {
            RTCPointQueryContext context;
            rtcInitPointQueryContext(&context);
            RTCPointQuery query{float(near_to.at.x), float(near_to.at.y), float(near_to.at.z), 0, std::numeric_limits<float>::infinity()};
            best.clear();
            Nearest asked{*this, near_to.want, best};
            rtcPointQuery(scene, &query, &context, nullptr, &asked);
            std::sort_heap(best.begin(), best.end());
            tally.count += best.size();
            if (tally.checks)
                for (auto &[square, slot] : best) tally.sum += square_of({near_to.at, near_to.at}, bodies[slot]);
        }
    }
    static void collided(void *self, RTCCollision *found, unsigned count) {
        auto &e = *static_cast<Embree *>(self);
        for (unsigned i = 0; i < count; i++) {
            // Each pair comes both ways round.
            uint32_t a = found[i].primID0, b = found[i].primID1;
            if (a < b && meet(e.bodies[a], e.bodies[b])) e.pairs.push_back(a << 13 | b);
        }
    }
    void add(const std::vector<pw_box> &boxes) override {
        Searcher::add(boxes);
        rtcSetGeometryUserPrimitiveCount(geometry, unsigned(boxes.size()));
        rtcAttachGeometry(scene, geometry);
    }
    void search() override {
        rtcCommitGeometry(geometry);
        rtcCommitScene(scene);
        rtcCollide(scene, scene, collided, this);
    }
};

template <RTCBuildQuality quality, bool hears_in_time> std::unique_ptr<Engine> embree() {
    return std::make_unique<Embree>(quality, hears_in_time);
}
#endif

#ifdef WITH_CGAL
// CGAL's intersection of boxes, by segment trees and scans, in whole numbers and so exact. It sorts the boxes anew each time.
struct Cgal final : Searcher {
    struct Body {
        int32_t lo[3], hi[3];
        uint32_t slot;
    };
    struct Sides {
        using Box_parameter = const Body &;
        using NT = int32_t;
        using ID = uint32_t;
        static int dimension() { return 3; }
        static ID id(const Body &body) { return body.slot; }
        static NT min_coord(const Body &body, int axis) { return body.lo[axis]; }
        static NT max_coord(const Body &body, int axis) { return body.hi[axis]; }
    };
    std::vector<Body> boxes;

    explicit Cgal(bool hears_in_time) : Searcher(hears_in_time) {}
    void search() override {
        boxes.clear();
        for (uint32_t slot = 0; slot < bodies.size(); slot++) {
            const pw_box &b = bodies[slot];
            boxes.push_back({{b.lo.x, b.lo.y, b.lo.z}, {b.hi.x, b.hi.y, b.hi.z}, slot});
        }
        CGAL::box_self_intersection_d(
            boxes.begin(), boxes.end(),
            [this](const Body &a, const Body &b) { pairs.push_back(std::min(a.slot, b.slot) << 13 | std::max(a.slot, b.slot)); }, Sides(), 500,
            CGAL::Box_intersection_d::CLOSED);
    }
};
#endif

#ifdef WITH_BOOST
// Boost.Geometry's R-tree, in doubles: R* with at most 16 in a node. A box that moved is taken out and put in again; if over a quarter of
// them did, the tree is packed anew. It is asked, and finds no pairs here.
struct Boost final : Engine {
    using Point = boost::geometry::model::point<double, 3, boost::geometry::cs::cartesian>;
    using Body = boost::geometry::model::box<Point>;
    using Way = boost::geometry::model::segment<Point>;
    using Value = std::pair<Body, uint32_t>;
    using Tree = boost::geometry::index::rtree<Value, boost::geometry::index::rstar<16>>;
    Tree tree;
    std::vector<pw_box> bodies;

    static Point at(const pw_point &p) { return {double(p.x), double(p.y), double(p.z)}; }
    static Body body(const pw_box &b) { return {at(b.lo), at(b.hi)}; }
    void pack() {
        std::vector<Value> all;
        for (size_t i = 0; i < bodies.size(); i++) all.emplace_back(body(bodies[i]), uint32_t(i));
        tree = Tree(all.begin(), all.end());
    }
    void add(const std::vector<pw_box> &boxes) override { bodies = boxes, pack(); }
    void move(const std::vector<Move> &moves) override {
        bool packs = moves.size() * 4 > bodies.size();
        for (const Move &m : moves) {
            if (!packs) tree.remove(Value{body(bodies[m.slot]), m.slot}), tree.insert(Value{body(m.body), m.slot});
            bodies[m.slot] = m.body;
        }
        if (packs) pack();
    }
    void update() override {}
    template <typename Found> void query(Found found, const pw_query &query) {
        auto out = boost::make_function_output_iterator([&](const Value &value) { found(value.second); });
        if (query.kind == PW_SEGMENT)
            tree.query(boost::geometry::index::intersects(Way(at(query.a), at(query.b))), out);
        else
            tree.query(boost::geometry::index::intersects(body({query.a, query.b})), out);
    }
    void hits(All<pw_query> queries, Tally &tally) override {
        for (const pw_query &asked : queries) query([&](uint32_t slot) { tally.found(slot); }, asked);
    }
    // They come in no order, and stay so.
    template <typename Shape> void nearest_to(const Shape &shape, unsigned want, const pw_box &same, Tally &tally) {
        tree.query(boost::geometry::index::nearest(shape, want), boost::make_function_output_iterator([&](const Value &value) {
                       tally.count++;
                       if (tally.checks) tally.sum += square_of(same, bodies[value.second]);
                   }));
    }
    void nearest(All<pw_near> places, Tally &tally) override {
        for (const pw_near &near_to : places) nearest_to(at(near_to.at), near_to.want, {near_to.at, near_to.at}, tally);
    }
    void nearest_8(All<pw_box> asking, Tally &tally) override {
        for (const pw_box &box : asking) nearest_to(body(box), 8, box, tally);
    }
};
#endif

struct Named {
    const char *name;
    std::unique_ptr<Engine> (*make)();
    bool has_pairs;
    Compared of[8]; // by groups of kinds: boxes, segments, ordered, firsts, each, casts, near, near_box
};

template <uint32_t structure, bool each> std::unique_ptr<Engine> ours() { return std::make_unique<Pungwelair>(structure, each); }

#ifdef WITH_EACH
constexpr Compared by_one_call = exactly;
#else
constexpr Compared by_one_call = not_asked;
#endif
#ifdef WITH_NEAR_BOX
constexpr Compared near_box = exactly;
#else
constexpr Compared near_box = not_asked;
#endif
#define ALL_KINDS {exactly, exactly, exactly, exactly, by_one_call, exactly, exactly, near_box}
#define NO_KINDS {not_asked, not_asked, not_asked, not_asked, not_asked, not_asked, not_asked, not_asked}
#define EMBREES_KINDS {not_asked, nearly, nearly, nearly, not_asked, not_asked, nearly, not_asked}

const Named engines[] = {
    {"plain", ours<PW_PLAIN, false>, true, ALL_KINDS},
    {"sap", ours<PW_SAP, false>, true, ALL_KINDS},
    {"tree", ours<PW_TREE, false>, true, ALL_KINDS},
    {"tree, a call a move", ours<PW_TREE, true>, true, NO_KINDS},
    {"grid", ours<PW_GRID, false>, true, ALL_KINDS},
    {"grid, a call a move", ours<PW_GRID, true>, true, NO_KINDS},
    {"skin", ours<PW_SKIN, false>, true, ALL_KINDS},
    {"skin, a call a move", ours<PW_SKIN, true>, true, NO_KINDS},
#ifdef WITH_BULLET
    {"bullet's dbvt",
     [] { return std::unique_ptr<Engine>(new Bullet); },
     true,
     {exactly, not_compared, nearly, nearly, not_asked, nearly, not_asked, not_asked}},
#endif
#ifdef WITH_EMBREE
    {"embree, refitted", embree<RTC_BUILD_QUALITY_REFIT, true>, true, EMBREES_KINDS},
    {"  pairs alone", embree<RTC_BUILD_QUALITY_REFIT, false>, true, NO_KINDS},
    {"embree, built anew", embree<RTC_BUILD_QUALITY_LOW, true>, true, EMBREES_KINDS},
    {"  pairs alone", embree<RTC_BUILD_QUALITY_LOW, false>, true, NO_KINDS},
#endif
#ifdef WITH_CGAL
    {"cgal", [] { return std::unique_ptr<Engine>(new Cgal(true)); }, true, NO_KINDS},
    {"  pairs alone", [] { return std::unique_ptr<Engine>(new Cgal(false)); }, true, NO_KINDS},
#endif
#ifdef WITH_BOOST
    {"boost's r-tree",
     [] { return std::unique_ptr<Engine>(new Boost); },
     false,
     {exactly, nearly, not_asked, not_asked, not_asked, not_asked, exactly, near_box}},
#endif
};
constexpr size_t engine_count = sizeof engines / sizeof *engines;

struct Times {
    uint64_t frame = UINT64_MAX, sum = 0, kind[kind_count];
    // Of all frames, made in the first round.
    uint64_t hits[kind_count] = {}, hits_sum[kind_count] = {};
    Times() { std::fill(kind, kind + kind_count, UINT64_MAX); }
};

// The first round makes the sums of the answers, and its times of questions don't count.
void play(const Named &named, const Play &play, const std::vector<bool> &wanted, bool checks, Times &least) {
    std::unique_ptr<Engine> engine = named.make();
    engine->add(play.first);
    engine->update();
    uint64_t frame = 0, kind[kind_count] = {};
    least.sum = engine->pairs_sum();
    for (size_t f = 0; f < play.moves.size(); f++) {
        uint64_t begun = nanoseconds();
        engine->move(play.moves[f]);
        engine->update();
        frame += nanoseconds() - begun;
        least.sum = least.sum * 31 + engine->pairs_sum();
        for (size_t k = 0; k < kind_count; k++) {
            if (!wanted[k] || named.of[kinds[k].group] == not_asked) continue;
            Tally tally{checks};
            begun = nanoseconds();
            kinds[k].ask(*engine, play.questions[f], tally);
            kind[k] += nanoseconds() - begun;
            if (checks) least.hits[k] += tally.count, least.hits_sum[k] += tally.sum;
        }
    }
    least.frame = std::min(least.frame, frame);
    if (checks) return;
    for (size_t k = 0; k < kind_count; k++) least.kind[k] = std::min(least.kind[k], kind[k]);
}

// Whether two numbers are the same up to a thousandth, and one.
bool near_to(uint64_t a, uint64_t b) { return std::max(a, b) - std::min(a, b) <= std::max(a, b) / 1000 + 1; }

// `right` is the kind of the first engine that it is held to.
bool is_same(Compared compared, Kind::Group group, const Times &times, const Times &first, size_t k, size_t right) {
    if (compared == exactly) return times.hits[k] == first.hits[right] && times.hits_sum[k] == first.hits_sum[right];
    // Of the nearest the sum is one of squares.
    return compared != nearly ||
           (near_to(times.hits[k], first.hits[k]) && (group != Kind::near || near_to(times.hits_sum[k], first.hits_sum[k])));
}

int play_scene(const char *name, int rounds) {
    std::FILE *file = std::fopen(name, "r");
    if (!file) return std::fprintf(stderr, "no file %s\n", name), 2;
    Play all = read_scene(file);
    std::fclose(file);
    Times times[engine_count];
    const std::vector<bool> none(kind_count);
    for (int r = 0; r < rounds; r++)
        for (size_t e = 0; e < engine_count; e++)
            if (engines[e].has_pairs) play(engines[e], all, none, false, times[e]);
    size_t moves = 0;
    for (auto &frame : all.moves) moves += frame.size();
    std::printf("%s: %zu boxes, %zu frames, %zu moves; microseconds a frame of moves and changes, least of %d\n", name, all.first.size(), all.moves.size(),
                moves, rounds);
    for (size_t e = 0; e < engine_count; e++) {
        if (!engines[e].has_pairs) continue;
        if (times[e].sum != times[0].sum) return std::fprintf(stderr, "%s, %s: other pairs\n", name, engines[e].name), 1;
        std::printf("%-22s %12.1f\n", engines[e].name, double(times[e].frame) / double(all.moves.size()) / 1000);
    }
    return 0;
}

// `played` are the places of the engines that are wanted, of which the first is held to be right.
int play_load(const Load &load, int boxes, int frames, int rounds, const std::vector<bool> &wanted, const std::vector<size_t> &played) {
    Play all = made(load, boxes, frames, load.questions);
    Times times[engine_count];
    for (int r = load.questions ? -1 : 0; r < rounds; r++)
        for (size_t e : played) play(engines[e], all, wanted, r < 0, times[e]);
    for (size_t e : played) {
        if (!engines[e].has_pairs) continue;
        if (times[e].sum != times[0].sum) return std::fprintf(stderr, "%s, %s: other pairs\n", load.name, engines[e].name), 1;
        std::printf("%-8s %-22s %-18s %12.1f\n", load.name, engines[e].name, "frame", double(times[e].frame) / frames / 1000);
    }
    if (!load.questions) return 0;
    for (size_t k = 0; k < kind_count; k++) {
        if (!wanted[k]) continue;
        // One call for all has the answers of single calls, which are the kind before it.
        size_t right = kinds[k].group == Kind::each && wanted[k - 1] ? k - 1 : k;
        for (size_t e : played) {
            Compared compared = engines[e].of[kinds[k].group];
            if (compared == not_asked) continue;
            if (!is_same(compared, kinds[k].group, times[e], times[0], k, right))
                return std::fprintf(stderr, "%s, %s, %s: other hits\n", load.name, engines[e].name, kinds[k].name), 1;
            double asked = double(frames) * load.questions;
            std::printf("%-8s %-22s %-18s %12.1f %9.2f\n", load.name, engines[e].name, kinds[k].name, double(times[e].kind[k]) / asked,
                        double(times[e].hits[k]) / asked);
        }
    }
    return 0;
}

// Of an engine the beginning of its name is enough.
template <typename Thing, size_t count> const Thing *named(const Thing (&things)[count], const char *name, bool whole) {
    for (const Thing &thing : things)
        if (whole ? !std::strcmp(thing.name, name) : !std::strncmp(thing.name, name, std::strlen(name))) return &thing;
    return std::fprintf(stderr, "nothing here is named %s\n", name), nullptr;
}

} // namespace

// What callgrind counts.
extern "C" __attribute__((noinline)) void asked_alone(Engine &engine, const Kind &kind, const Questions &questions, Tally &tally) {
    kind.ask(engine, questions, tally);
}

namespace {

// Boxes as they stand after three frames; some questions of the kind come before, so that lists have their room.
int count(char **words) {
    const Load *load = named(loads, words[0], true);
    const Kind *kind = named(kinds, words[2], true);
    if (!load || !kind) return 2;
    const Named *name = named(engines, words[1], false);
    if (!name || name->of[kind->group] == not_asked) return std::fprintf(stderr, "%s has no such question\n", words[1]), 3;
    constexpr int frames = 3;
    Play all = made(*load, std::atoi(words[3]), frames, std::max(std::atoi(words[4]), 1));
    std::unique_ptr<Engine> engine = name->make();
    engine->add(all.first), engine->update();
    for (auto &moves : all.moves) engine->move(moves), engine->update();
    Tally before{false}, tally{false};
    kind->ask(*engine, all.questions[0], before);
    asked_alone(*engine, *kind, all.questions[1], tally);
    std::printf("%s %s %s: %zu questions, %.2f boxes each\n", load->name, name->name, kind->name, all.questions[1].boxes.size(),
                double(tally.count) / double(all.questions[1].boxes.size()));
    return 0;
}

// Bytes of the blocks that malloc gave.
size_t given() {
#if defined __GLIBC__ && (__GLIBC__ > 2 || __GLIBC_MINOR__ >= 33)
    struct mallinfo2 now = mallinfo2();
    return now.uordblks + now.hblkhd;
#else
    return 0;
#endif
}

// What a world takes, and what it takes to have it read by four readers and back.
int tell_worlds(int boxes) {
    // A pair for some seven boxes.
    const Load load = {"world", 1.5, 0.5, 1.5, false, false, 0, 0, 0};
    Play all = made(load, boxes, 0, 0);
    const char *names[] = {"plain", "sap", "tree", "grid", "skin"};
    std::printf("%d boxes; bytes that malloc gave, and nanoseconds of a share, three joins and four unshares\n", boxes);
    std::printf("%-8s %12s %12s %9s %9s\n", "world", "empty", "with boxes", "pairs", "readers");
    for (uint32_t structure = PW_PLAIN; structure <= PW_SKIN; structure++) {
        pw_world world = PW_WORLD_INIT;
        std::vector<pw_handle> handles(all.first.size());
        pw_new how = pw_seen_by_all();
        pw_counts counts;
        size_t done, begun = given();
        must(pw_open(&world, structure));
        size_t empty = given() - begun;
        must(pw_add(&world, all.first.data(), all.first.size(), &how, handles.data(), handles.size(), &done));
        must(pw_update(&world, &counts));
        std::printf("%-8s %12zu %12zu %9zu", names[structure], empty, given() - begun, counts.pairs);
#ifdef WITH_READERS
        pw_reader readers[4] = {};
        for (pw_reader &reader : readers) must(pw_reader_open(&reader));
        uint64_t least = UINT64_MAX;
        constexpr int rounds = 20, times = 1000;
        for (int r = 0; r < rounds; r++) {
            uint64_t start = nanoseconds();
            for (int i = 0; i < times; i++) {
                must(pw_share(&world, &readers[0]));
                for (int k = 1; k < 4; k++) must(pw_join(&readers[0], &readers[k]));
                for (int k = 0; k < 4; k++)
                    if (pw_unshare(&readers[k], &world) != (k == 3 ? pw_status(PW_OK) : pw_status(PW_SHARED))) must(PW_SHARED);
            }
            least = std::min(least, nanoseconds() - start);
        }
        for (pw_reader &reader : readers) must(pw_reader_close(&reader));
        std::printf(" %9.1f\n", double(least) / times);
#else
        std::printf(" %9s\n", "-");
#endif
        must(pw_close(&world));
    }
    return 0;
}

// The moves of a frame, as pw_move takes them.
struct Batch {
    std::vector<pw_handle> handles;
    std::vector<pw_box> bodies;

    Batch(const std::vector<Move> &moves, const std::vector<pw_handle> &of) {
        for (const Move &move : moves) handles.push_back(of[move.slot]), bodies.push_back(move.body);
    }
    Batch(const std::vector<pw_handle> &handles, const std::vector<pw_box> &bodies) : handles(handles), bodies(bodies) {}

    void tell(pw_world &world) const {
        size_t done;
        must(pw_move(&world, handles.data(), handles.size(), bodies.data(), bodies.size(), &done));
    }
};

// The least time of each step that is named, in the order in which they first came.
struct Least {
    std::vector<std::pair<const char *, double>> times;

    // The time of a call, shared out to so many parts.
    template <typename Call> void time(const char *name, size_t parts, Call call) {
        uint64_t begun = nanoseconds();
        call();
        double took = double(nanoseconds() - begun) / double(std::max<size_t>(parts, 1));
        for (auto &[known, least] : times)
            if (known == name) return void(least = std::min(least, took));
        times.push_back({name, took});
    }

    // Of a call that is short beside the clock, made many times.
    template <typename Call> void time_often(const char *name, size_t often, Call call) {
        time(name, often, [&] {
            for (size_t i = 0; i < often; i++) call();
        });
    }
};

// A world like that of the load `asked`: boxes come, some and then all of them move, and they go.
void time_calls(uint32_t structure, const Play &some_move, const Play &all_move, Least &least) {
    size_t boxes = some_move.first.size(), done, count;
    std::vector<pw_handle> handles(boxes);
    pw_new how = pw_seen_by_all();
    pw_live live;
    pw_counts counts;
    pw_world world = PW_WORLD_INIT;
    auto update = [&] { must(pw_update(&world, &counts)); };

    must(pw_open(&world, structure));
    least.time("pw_add, a box", boxes, [&] { must(pw_add(&world, some_move.first.data(), boxes, &how, handles.data(), boxes, &done)); });
    update();
    Batch some(some_move.moves[0], handles), back(handles, some_move.first), all(all_move.moves[0], handles);
    least.time("pw_move, a box of one in thirty", some.handles.size(), [&] { some.tell(world); });
    least.time("pw_update, one in thirty moved", 1, update);
    std::vector<pw_told> told(counts.events);
    std::vector<pw_pair> pairs(2 * counts.pairs + 1000);
    least.time_often("pw_changes, all", 100, [&] { must(pw_changes(&world, 0, told.data(), told.size(), &count)); });
    least.time_often("pw_events, all", 100, [&] { must(pw_events(&world, 0, told.data(), told.size(), &count)); });
    least.time_often("pw_pairs, all", 100, [&] { must(pw_pairs(&world, 0, pairs.data(), pairs.size(), &count)); });
    least.time_often("pw_update, nothing told", 100, update);
    all.tell(world);
    least.time("pw_pairs_now, all moved", 1, [&] { must(pw_pairs_now(&world, 0, pairs.data(), pairs.size(), &count)); });
    update();
    least.time("pw_move, a box of all", boxes, [&] { back.tell(world); });
    least.time("pw_update, all moved", 1, update);
    constexpr size_t marks = 50;
    least.time_often("pw_mark", marks, [&] { must(pw_mark(&world)); });
    for (size_t i = 1; i < marks; i++) must(pw_back(&world));
    some.tell(world);
    least.time("pw_back, a move", some.handles.size(), [&] { must(pw_back(&world)); });
    least.time("pw_get", boxes, [&] { for (pw_handle handle : handles) must(pw_get(&world, handle, &live)); });
    least.time("pw_mask", boxes, [&] { for (pw_handle handle : handles) must(pw_mask(&world, handle, how.masks)); });
    least.time("pw_remove, a box", boxes, [&] { must(pw_remove(&world, handles.data(), boxes, &done)); });
    must(pw_close(&world));
}

// What calls take that ask nothing, over each structure.
int tell_calls(int boxes, int rounds) {
    const Load few = {"few", 4.0, 0.5, 1.5, false, false, 0.03, 0.05, 0}, much = {"much", 4.0, 0.5, 1.5, false, false, 1.0, 0.5, 0};
    const Play some_move = made(few, boxes, 1, 0), all_move = made(much, boxes, 1, 0);
    const char *names[] = {"plain", "sap", "tree", "grid", "skin"};
    std::printf("%d boxes, least of %d; nanoseconds\n", boxes, rounds);
    for (uint32_t structure = PW_PLAIN; structure <= PW_SKIN; structure++) {
        Least least;
        for (int r = 0; r < rounds; r++) time_calls(structure, some_move, all_move, least);
        for (auto &[name, time] : least.times) std::printf("%-8s %-32s %12.1f\n", names[structure], name, time);
    }
    return 0;
}

} // namespace

int main(int argc, char **argv) {
    if (argc == 7 && !std::strcmp(argv[1], "count")) return count(argv + 2);
    if (argc == 3 && !std::strcmp(argv[1], "world")) return tell_worlds(std::atoi(argv[2]));
    if (argc == 4 && !std::strcmp(argv[1], "calls")) return tell_calls(std::atoi(argv[2]), std::atoi(argv[3]));
    if (argc == 2 && !std::strcmp(argv[1], "kinds")) {
        for (const Kind &kind : kinds) std::printf("%s\n", kind.name);
        return 0;
    }
    if (argc == 3) return play_scene(argv[1], std::atoi(argv[2]));
    if (argc < 4)
        return std::fprintf(stderr, "usage: in_process BOXES FRAMES ROUNDS [LOAD, KIND or -ENGINE..], in_process SCENE ROUNDS,\n"
                                    "       in_process count LOAD ENGINE KIND BOXES QUESTIONS, in_process world BOXES,\n"
                                    "       in_process calls BOXES ROUNDS, or in_process kinds\n"),
               2;
    int boxes = std::atoi(argv[1]), frames = std::atoi(argv[2]), rounds = std::atoi(argv[3]);
    std::vector<bool> of_kinds(kind_count), of_loads(sizeof loads / sizeof *loads);
    std::vector<size_t> played(engine_count);
    std::iota(played.begin(), played.end(), size_t(0));
    for (int i = 4; i < argc; i++) {
        bool is_known = false;
        // Plain stays: the others are held to it.
        auto is_left_out = [&](size_t e) { return e > 0 && argv[i][0] == '-' && !std::strncmp(engines[e].name, argv[i] + 1, std::strlen(argv[i]) - 1); };
        auto rest = std::remove_if(played.begin(), played.end(), is_left_out);
        is_known |= rest != played.end();
        played.erase(rest, played.end());
        auto take = [&](const char *name, std::vector<bool>::reference wanted) {
            if (!std::strcmp(argv[i], name)) wanted = is_known = true;
        };
        for (size_t k = 0; k < kind_count; k++) take(kinds[k].name, of_kinds[k]);
        for (size_t l = 0; l < of_loads.size(); l++) take(loads[l].name, of_loads[l]);
        if (!is_known) return std::fprintf(stderr, "no load, kind or engine is named %s\n", argv[i]), 2;
    }
    auto all_if_none = [](std::vector<bool> &wanted) {
        if (std::find(wanted.begin(), wanted.end(), true) == wanted.end()) wanted.assign(wanted.size(), true);
    };
    all_if_none(of_kinds), all_if_none(of_loads);
    std::printf("%d boxes, %d frames, least of %d; microseconds a frame of moves and changes, nanoseconds a question and boxes found by one\n", boxes,
                frames, rounds);
    std::printf("%-8s %-22s %-18s %12s %9s\n", "load", "engine", "kind", "time", "found");
    for (size_t l = 0; l < of_loads.size(); l++) {
        int status = of_loads[l] ? play_load(loads[l], boxes, frames, rounds, of_kinds, played) : 0;
        if (status != 0) return status;
    }
}
