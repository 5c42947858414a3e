// Each call of the wrapper for C++ once: what it makes of a status, and of vectors, arrays, spans, braces and empty ones.
#include "expect.h"
#include "pungwelair.hpp"
#include <algorithm>
#include <array>
#include <limits>
#include <set>
#include <string>
#include <string_view>
#include <thread>
#include <unordered_map>
#include <unordered_set>
#include <vector>
#if __cplusplus >= 202002L
#include <span>
#endif

using pungwelair::event_of;
using pungwelair::Hit;
using pungwelair::Reader;
using pungwelair::Status;
using pungwelair::Structure;
using pungwelair::World;

namespace {

constexpr Structure structures[] = {Structure::plain, Structure::sap, Structure::tree, Structure::grid, Structure::skin};
constexpr pw_point origin{0, 0, 0};
constexpr pw_box inverted{{1, 0, 0}, {0, 0, 0}};

pw_box cube(int32_t x) { return {{x, 0, 0}, {x + 10, 10, 10}}; }

void changes_and_frames(Structure structure) {
    World world(structure);
    std::vector<pw_handle> handles(3);
    const std::array<pw_box, 3> boxes{cube(0), cube(10), cube(30)};
    auto added = world.add(boxes, pw_seen_by_all(), handles);
    EXPECT(added && added.done == 3);
    auto owned = world.add(cube(31), {{1, ~0u}, {7, 1}});
    EXPECT(owned && world.get(*owned) && world.get(*owned)->group.owner == 7 && world.get(*owned)->group.fixed != 0);

    auto frame = world.update();
    pw_pair pairs[4];
    std::array<pw_told, 4> events;
    EXPECT(frame && frame.pairs == 2 && frame.events == 2 && frame.changes == 2);
    EXPECT(world.pairs(0, pairs).count == 2 && pairs[1].a == handles[2] && pairs[1].b == *owned);
    EXPECT(world.events(1, events).count == 1 && event_of(events[0]) == pungwelair::Event::begin);
    EXPECT(world.changes(1, events).count == 1 && events[0].pair.b == *owned);

    const pw_handle which[2] = {handles[1], *owned};
    EXPECT(world.move(handles[0], cube(100)) == Status::ok);
    EXPECT(world.move(which, std::vector{cube(105), cube(30)}).done == 2);
    EXPECT(world.mask(*owned, {1, 0}) == Status::ok);
    frame = world.update();
    EXPECT(frame.pairs == 1 && frame.events == 2 && frame.changes == 1 && world.events(0, events).count == 2);
    EXPECT(event_of(events[0]) == pungwelair::Event::stay && event_of(events[1]) == pungwelair::Event::over);
    std::vector<pw_told> changes(frame.changes);
    EXPECT(world.changes(0, changes).count == 1 && event_of(changes[0]) == pungwelair::Event::over && changes[0].pair.b == *owned);

    EXPECT(world.remove(*owned) == Status::ok && world.remove(handles).done == 3);
    EXPECT(world.info() && world.info()->boxes == 0 && world.info()->frames == 2 && world.info()->structure == uint32_t(structure));
}

void questions(Structure structure) {
    World world(structure);
    std::vector<pw_handle> out(4);
    auto far = world.add(cube(50)), near = world.add(cube(0));
    EXPECT(far && near);
    EXPECT(world.hits({PW_REGION, 1, cube(5).lo, cube(5).hi}, out).count == 1 && out[0] == *near);
    EXPECT(world.hits({PW_RAY, 1, {-5, 5, 5}, {2, 0, 0}}, out).count == 2 && out[0] == *far);
    EXPECT(world.ray_hits({1, {-5, 5, 5}, {2, 0, 0}}, out).count == 2 && out[0] == *near);
    EXPECT(world.cast_hits({1, cube(-20), {60, 0, 0}}, out).count == 2 && out[1] == *far);
    EXPECT(world.nearest({1, 1, {40, 5, 5}}, out).count == 1 && out[0] == *far);
    auto first = world.first_hit({1, {99, 5, 5}, {-1, 0, 0}});
    EXPECT(first && *first == *far);
    EXPECT(!world.first_hit({2, {99, 5, 5}, {-1, 0, 0}}));
}

// The first hit, where it is and by which side, and why there is none.
void first_hits(Structure structure) {
    World world(structure);
    auto far = world.add(cube(50)), near = world.add(cube(0));
    auto hit = world.ray_first({1, {100, 5, 5}, {-80, 0, 0}});
    EXPECT(far && near && hit && hit->handle == *far && hit->place() == 0.5 && hit->num * 2 == hit->den);
    EXPECT(hit->face() && hit->face()->first == 0 && hit->face()->second == pungwelair::Side::upper);
    EXPECT(hit->normal() && (*hit->normal() == std::array<int, 3>{1, 0, 0}));
    auto moved = world.cast_first({1, {{0, -20, 0}, {1, -10, 1}}, {0, 20, 0}});
    EXPECT(moved && moved->handle == *near && moved->place() == 0.5 && (*moved->normal() == std::array<int, 3>{0, -1, 0}));
    auto within = world.ray_first({1, {5, 5, 5}, {0, 1, 0}});
    EXPECT(within && within->handle == *near && within->place() == 0 && !within->face() && !within->normal());
    EXPECT(!world.ray_first({2, {100, 5, 5}, {-80, 0, 0}}) && !world.cast_first({1, cube(-20), {9, 0, 0}}));
    auto nothing = world.try_cast_first({1, cube(-20), {9, 0, 0}});
    EXPECT(nothing && !*nothing && world.try_cast_first({1, inverted, origin}).error() == Status::inverted);
    EXPECT(World().try_ray_first({1, origin, origin}).error() == Status::closed && !World().ray_first({1, origin, origin}));
}

// Where a way meets a box that isn't the first, or is in no group that is asked for; how far off it is; and why there is no answer.
void meetings(Structure structure) {
    World world(structure);
    auto far = world.add(cube(50)), near = world.add(cube(0));
    const pw_ray ray{2, {100, 5, 5}, {-80, 0, 0}};
    const pw_cast cast{0, cube(-20), {60, 0, 0}}, wrong{1, inverted, origin};
    EXPECT(far && near);
    auto hit = world.ray_meets(ray, *near), moved = world.cast_meets(cast, *far);
    EXPECT(hit && hit->handle == *near && hit->num * 8 == hit->den * 9 && hit->place() == 1.125);
    EXPECT(hit && (*hit->normal() == std::array<int, 3>{1, 0, 0}));
    EXPECT(moved && moved->handle == *far && moved->place() == 1 && (*moved->normal() == std::array<int, 3>{-1, 0, 0}));
    EXPECT(world.ray_meets({1, {5, 5, 5}, origin}, *near)->place() == 0 && !world.ray_meets({1, {5, 5, 5}, origin}, *near)->face());
    const pw_cast shorter{1, cube(-20), {59, 0, 0}};
    auto missed = world.try_ray_meets({1, {100, 5, 5}, {80, 0, 0}}, *near), ends_short = world.try_cast_meets(shorter, *far);
    EXPECT(missed && !*missed && ends_short && !*ends_short && !world.cast_meets(shorter, *far));
    EXPECT(world.try_ray_meets(ray, pungwelair::no_handle).error() == Status::stale && !world.ray_meets(ray, pungwelair::no_handle));
    EXPECT(world.try_cast_meets(cast, pungwelair::no_handle).error() == Status::stale);
    EXPECT(world.try_cast_meets(wrong, pungwelair::no_handle).error() == Status::inverted && !world.cast_meets(wrong, *near));
    EXPECT(World().try_ray_meets(ray, *near).error() == Status::closed && World().try_cast_meets(cast, *near).error() == Status::closed);

    auto square = world.square_to({13, 14, 10}, *near), within = world.square_to({55, 5, 5}, *far);
    EXPECT(square && square->low == 25 && square->high == 0 && within && within->low == 0 && within->high == 0);
    auto unit = world.square_to({55, 5, 65546}, *far);
    EXPECT(unit && unit->low == uint64_t(1) << 32 && pw_squared(&*unit) == 1);
    EXPECT(world.move(*near, {{INT32_MAX, INT32_MAX, 0}, {INT32_MAX, INT32_MAX, 0}}) == Status::ok);
    auto farthest = world.try_square_to({INT32_MIN, INT32_MIN, 0}, *near);
    // Twice (2^32 - 1)^2.
    EXPECT(farthest && farthest->high == 1 && farthest->low == 0xfffffffc00000002u && pw_squared(&*farthest) == 8589934588);
    EXPECT(world.try_square_to(origin, pungwelair::no_handle).error() == Status::stale && !World().square_to(origin, *near));
}

// The nearest to a box, those behind them, and how far they are off.
void nearest_to_boxes(Structure structure) {
    World world(structure);
    auto far = world.add(cube(50)), near = world.add(cube(0)), beside = world.add(cube(15));
    std::vector<pw_handle> out(4);
    EXPECT(far && near && beside);
    EXPECT(world.nearest_box({1, 2, cube(28), {0, 0}}, out).count == 2 && out[0] == *beside && out[1] == *far);
    EXPECT(world.nearest_box({1, 9, cube(28), {10, 0}}, out).count == 2 && out[0] == *far && out[1] == *near);
    EXPECT(world.nearest_box({1, 9, cube(28), {0, 1}}, out).count == 0 && world.nearest_box({2, 9, cube(28), {0, 0}}, out).count == 0);
    auto refused = world.nearest_box({1, 9, inverted, {0, 0}}, out);
    EXPECT(!refused && refused.status == Status::inverted && World().nearest_box({1, 9, cube(0), {0, 0}}, out).status == Status::closed);
    auto square = world.square_apart(cube(28), *near), touching = world.square_apart(cube(60), *far);
    EXPECT(square && square->low == 324 && square->high == 0 && touching && touching->low == 0);
    EXPECT(world.try_square_apart(inverted, pungwelair::no_handle).error() == Status::inverted && !world.square_apart(inverted, *near));
    EXPECT(world.try_square_apart(cube(0), pungwelair::no_handle).error() == Status::stale);
    EXPECT(World().try_square_apart(cube(0), *near).error() == Status::closed);
}

// Many questions at once, in lists of each form, up to the first that is refused.
void many_at_once(Structure structure) {
    World world(structure);
    auto far = world.add(cube(50)), near = world.add(cube(0));
    EXPECT(far && near);
    const pw_query both{PW_REGION, 1, cube(0).lo, cube(50).hi}, one{PW_POINT, 1, {5, 5, 5}, origin}, wrong{9, 1, origin, origin};
    std::array<pw_handle, 4> out{};
    std::array<std::size_t, 3> ends{7, 7, 7};
    auto told = world.hits_each({both, one}, out, ends);
    EXPECT(told && told.done == 2 && ends[0] == 2 && ends[1] == 3 && ends[2] == 7);
    EXPECT(out[0] == *far && out[1] == *near && out[2] == *near);
    std::vector<pw_handle> little(1);
    told = world.hits_each(std::vector{one, both, wrong}, little, ends);
    EXPECT(!told && told.status == Status::argument && told.done == 2 && ends[0] == 1 && ends[1] == 3 && little[0] == *near);
    told = world.hits_each({both, one}, out, {ends.data(), 1});
    EXPECT(told.status == Status::argument && told.done == 0 && ends[0] == 1);

    const pw_ray ray{1, {100, 5, 5}, {-80, 0, 0}}, away{1, {100, 5, 5}, {80, 0, 0}};
    const pw_cast cast{1, cube(-20), {20, 0, 0}}, short_of{1, cube(-20), {9, 0, 0}}, none{1, inverted, origin};
    std::vector<Hit> hits(3);
    told = world.ray_first_each({ray, away}, hits);
    EXPECT(told && told.done == 2 && hits[0].has_box() && hits[0].handle == *far && hits[0].place() == 0.5 && !hits[1].has_box());
    EXPECT(hits[1].handle == pungwelair::no_handle && hits[1].place() == 0 && !hits[1].face() && hits[2].den == 0);
    told = world.cast_first_each(std::vector{short_of, cast, none}, hits);
    EXPECT(told.status == Status::inverted && told.done == 2 && !hits[0].has_box() && hits[1].handle == *near && hits[1].place() == 0.5);
    EXPECT(hits[1].normal() && (*hits[1].normal() == std::array<int, 3>{-1, 0, 0}) && hits[2].den == 0);
    EXPECT(world.ray_first_each({ray, away}, {hits.data(), 1}).status == Status::argument);
    EXPECT(World().hits_each({one}, out, ends).status == Status::closed && World().ray_first_each({ray}, hits).status == Status::closed);
    EXPECT(World().cast_first_each({cast}, hits).done == 0);
}

// Each question, of what may be asked: of a world, or by a reader.
template <class Asked>
void expect_questions(Asked& asked, pw_handle far, pw_handle near) {
    std::array<pw_handle, 4> out{};
    std::array<std::size_t, 1> ends{};
    std::array<Hit, 2> hits{};
    const pw_query point{PW_POINT, 1, {5, 5, 5}, origin};
    const pw_ray ray{1, {100, 5, 5}, {-80, 0, 0}};
    const pw_cast cast{1, cube(-20), {20, 0, 0}};
    EXPECT(asked.hits({PW_REGION, 1, cube(5).lo, cube(5).hi}, out).count == 1 && out[0] == near);
    EXPECT(asked.ray_hits(ray, out).count == 2 && out[0] == far && asked.cast_hits(cast, out).count == 1 && out[0] == near);
    EXPECT(asked.nearest({1, 1, {90, 5, 5}}, out).count == 1 && out[0] == far);
    EXPECT(asked.nearest_box({1, 9, cube(40), {1, 0}}, out).count == 1 && out[0] == near);
    EXPECT(asked.hits_each({point}, out, ends).done == 1 && ends[0] == 1 && out[0] == near);
    EXPECT(asked.ray_first(ray)->handle == far && asked.cast_first(cast)->place() == 0.5 && *asked.first_hit(ray) == far);
    EXPECT(asked.ray_first_each({ray, ray}, hits).done == 2 && hits[1].handle == far && asked.cast_first_each({cast}, hits).done == 1);
    EXPECT(asked.ray_meets(ray, near)->place() == 1.125 && asked.cast_meets(cast, near)->handle == near && !*asked.try_cast_meets(cast, far));
    EXPECT(asked.square_to({13, 14, 10}, near)->low == 25 && asked.square_apart(cube(40), near)->low == 900);
}

// What is told without a question, of a world, or by a reader: two boxes that meet nothing, and a frame that has ended.
template <class Asked>
void expect_readings(Asked& asked, pw_handle far, pw_handle near) {
    std::array<pw_pair, 1> pairs{};
    std::array<pw_told, 1> events{};
    EXPECT(asked.get(far)->body == cube(50) && asked.at(near.slot)->handle == near && asked.at(near.slot)->live.body == cube(0));
    EXPECT(asked.try_get(pungwelair::no_handle).error() == Status::stale && asked.try_at(PW_SLOTS).error() == Status::stale);
    auto paired = asked.pairs(0, pairs), told = asked.events(0, events), changed = asked.changes(0, events);
    EXPECT(paired && paired.count == 0 && told && told.count == 0 && changed && changed.count == 0);
    EXPECT(asked.info()->boxes == 2 && asked.info()->frames == 1 && asked.info()->spent == 0);
}

// A box of no group is found by a question whose mask is 0, and by no other.
void boxes_of_no_group(Structure structure) {
    World world(structure);
    std::array<pw_handle, 1> out{};
    auto box = world.add(cube(0), {{0, ~0u}, {0, 0}});
    const pw_ray each{0, {-5, 5, 5}, {1, 0, 0}}, any{~0u, {-5, 5, 5}, {1, 0, 0}};
    EXPECT(box && world.hits({PW_POINT, ~0u, origin, origin}, out).count == 0 && world.hits({PW_POINT, 0, origin, origin}, out).count == 1);
    EXPECT(world.ray_first(each)->handle == *box && !world.ray_first(any) && world.nearest({0, 1, origin}, out).count == 1);
    EXPECT(world.nearest({~0u, 1, origin}, out).count == 0 && world.nearest_box({0, 1, cube(50), {0, 0}}, out).count == 1);
}

// A world goes to readers, is closed meanwhile, and comes back with the last of them.
void readers_of_a_world(Structure structure) {
    World world(structure), other;
    auto far = world.add(cube(50)), near = world.add(cube(0));
    EXPECT(far && near && world.mark() == Status::ok && world.update().status == Status::ok);
    expect_questions(world, *far, *near);
    expect_readings(world, *far, *near);
    Reader first, second, third;
    EXPECT(!first.is_open() && !first.is_reading() && first.leave(other) == Status::closed && second.join(first) == Status::closed);
    EXPECT(world.share(first) == Status::ok && first.is_open() && first.is_reading() && !world.is_open() && world.status() == Status::closed);
    EXPECT(!world.info() && world.share(second) == Status::closed && world.close() == Status::closed);
    EXPECT(second.join(first) == Status::ok && second.join(first) == Status::shared && third.join(second) == Status::ok);
    EXPECT(first.join(first) == Status::shared && first.open() == Status::argument && first.close() == Status::shared && first.is_reading());
    for (Reader* reader : {&first, &second, &third}) {
        expect_questions(*reader, *far, *near);
        expect_readings(*reader, *far, *near);
    }

    EXPECT(other.open(structure) == Status::ok && other.share(first) == Status::shared && other.is_open());
    EXPECT(first.leave(other) == Status::argument && first.is_reading() && other.close() == Status::ok);
    EXPECT(second.leave(other) == Status::shared && !second.is_reading() && second.is_open() && !other.is_open() && !third.leave());
    expect_questions(first, *far, *near);
    EXPECT(first.leave(other) == Status::ok && other.is_open() && other.info()->boxes == 2 && other.info()->marks == 1);
    EXPECT(first.ray_hits({1, origin, origin}, {nullptr, 0}).status == Status::closed && !first.leave());
    EXPECT(first.try_get(*near).error() == Status::closed && first.pairs(0, {nullptr, 0}).status == Status::closed && !first.info());
    expect_questions(other, *far, *near);

    // It is changed, and the same readers read it again.
    EXPECT(other.back() == Status::ok && other.move(*near, cube(1)) == Status::ok && other.share(second) == Status::ok);
    EXPECT(first.join(second) == Status::ok && first.square_apart(cube(40), *near)->low == 841);
    EXPECT(!second.leave() && second.close() == Status::ok && !second.is_open());
    auto back = first.leave();
    EXPECT(back && back->is_open() && back->get(*near)->body == cube(1) && first.close() == Status::ok && first.close() == Status::closed);
}

// What a reader was moved from is closed, and one that ends leaves: the world stays with others, or ends too.
void readers_that_end() {
    World world(Structure::tree);
    EXPECT(world.add(cube(0)));
    Reader kept;
    {
        Reader ends, moved;
        EXPECT(world.share(ends) == Status::ok && kept.join(ends) == Status::ok);
        moved = std::move(ends);
        EXPECT(!ends.is_open() && !ends.is_reading() && ends.leave(world) == Status::closed && moved.is_reading());
        Reader again(std::move(moved));
        EXPECT(!moved.is_reading() && again.is_reading() && again.square_to(origin, {0, 0})->low == 0);
    }
    EXPECT(kept.square_to({0, 0, 12}, {0, 0})->low == 4);
    auto back = kept.leave();
    EXPECT(back && back->info()->boxes == 1);
    std::vector<Reader> readers(3);
    EXPECT(back && back->share(readers[0]) == Status::ok && readers[1].join(readers[0]) == Status::ok && readers[2].join(readers[1]) == Status::ok);
    // An assignment ends what was there, and the last end of all frees the world: a leak would be seen.
    readers[0] = Reader();
    EXPECT(!readers[0].is_reading() && readers[1].is_reading() && readers[2].square_to(origin, {0, 0})->low == 0);
    EXPECT(pw_reader_close(readers[1].native()) == PW_SHARED);
}

// The pairs of now, of which there may be more than there is room for, beside those of the last frame.
void pairs_within_a_frame(Structure structure) {
    World world(structure);
    std::array<pw_handle, 3> handles;
    std::array<pw_pair, 4> pairs{};
    EXPECT(world.add({cube(0), cube(5), cube(30)}, pungwelair::seen_by_all, handles) && world.update().pairs == 1);
    EXPECT(world.pairs_now(0, pairs).count == 1 && (pairs[0] == pw_pair{handles[0], handles[1]}));
    EXPECT(world.move(handles[2], cube(8)) == Status::ok);
    EXPECT(world.pairs_now(1, {pairs.data(), 1}).count == 3 && (pairs[0] == pw_pair{handles[0], handles[2]}));
    EXPECT(world.pairs_now(0, {nullptr, 0}).count == 3 && world.pairs(0, pairs).count == 1 && world.info()->frames == 1);
    EXPECT(world.update().changes == 2 && World().pairs_now(0, pairs).status == Status::closed && World().pairs_now(0, pairs).count == 0);
}

void marks_and_refusals() {
    World world(Structure::grid);
    auto kept = world.add(cube(0));
    EXPECT(kept && world.back() == Status::no_mark && world.mark() == Status::ok);
    auto lost = world.add(cube(5));
    EXPECT(lost && world.back() == Status::ok && !world.get(*lost) && world.get(*kept));
    EXPECT(!world.add(inverted) && world.move(*kept, inverted) == Status::inverted && world.remove(*lost) == Status::stale);
    std::vector<pw_handle> none;
    const std::vector<pw_box> one{cube(0)};
    EXPECT(world.add(one, pw_seen_by_all(), none).status == Status::argument);
    EXPECT(world.move(none, one).status == Status::argument && world.remove(none).status == Status::ok);
    EXPECT(world.hits({PW_POINT, 1, origin, origin}, none).count == 1);
    std::vector<pw_told> no_room;
    EXPECT(world.changes(0, no_room).status == Status::ok && World().changes(0, no_room).status == Status::closed);
    EXPECT(world.open(Structure::tree) == Status::argument && world.close() == Status::ok && world.close() == Status::closed);
    EXPECT(!world.info() && world.open(Structure::tree) == Status::ok && world.info());
}

// The oldest marks are given up, and the newest stays.
void forgotten_marks() {
    World world(Structure::tree);
    std::array<std::optional<pw_handle>, 3> handles;
    for (std::size_t k = 0; k < handles.size(); k++) {
        EXPECT(world.mark() == Status::ok);
        handles[k] = world.add(cube(int32_t(k) * 50));
    }
    EXPECT(world.forget(4) == Status::no_mark && world.forget(2) == Status::ok && world.info()->marks == 1);
    EXPECT(world.back() == Status::ok && world.get(*handles[1]) && !world.get(*handles[2]) && world.forget() == Status::no_mark);
    EXPECT(World().forget(0) == Status::closed);
}

// A loop over the boxes, which adds them to another world.
void boxes_by_slots() {
    World world(Structure::sap), again(Structure::grid);
    auto first = world.add(cube(0)), second = world.add(cube(50), {{1, 2}, {7, 1}}), third = world.add(cube(100));
    EXPECT(first && second && third && world.remove(*first) == Status::ok);
    std::vector<pw_handle> seen;
    for (const auto& [handle, live] : world.boxes()) {
        seen.push_back(handle);
        EXPECT(again.add(live.body, {live.masks, live.group}) && world.get(handle)->body == live.body);
    }
    EXPECT(seen.size() == 2 && seen[0] == *second && seen[1] == *third);
    EXPECT(again.at(0)->live.body == cube(50) && again.at(0)->live.group.owner == 7 && again.at(1)->live.body == cube(100));
    EXPECT(!world.at(0) && world.try_at(PW_SLOTS).error() == Status::stale && World().try_at(0).error() == Status::closed);
    EXPECT(World().boxes().begin() == World().boxes().end() && world.boxes().begin()->handle == *second);
}

// A box gets an owner after it came, and the pair with another of his is over.
void regrouped() {
    World world(Structure::skin);
    auto crate = world.add(cube(0)), wheel = world.add(cube(5), {{1, ~0u}, {7, 0}});
    EXPECT(crate && wheel && world.update().pairs == 1 && world.mark() == Status::ok);
    EXPECT(world.regroup(*crate, {7, 1}) == Status::ok && world.get(*crate)->group.owner == 7 && world.get(*crate)->group.fixed == 1);
    auto frame = world.update();
    EXPECT(frame.pairs == 0 && frame.changes == 1 && world.back() == Status::ok && world.update().pairs == 1);
    EXPECT(world.remove(*crate) == Status::ok && world.regroup(*crate, {0, 0}) == Status::stale);
}

// A refusal keeps its reason, and the forms of std::optional say the same without it.
void reasons() {
    World world(Structure::tree);
    auto kept = world.try_add(cube(0));
    EXPECT(kept && kept.has_value() && kept.error() == Status::ok && kept->slot == 0 && (*kept == pw_handle{0, 0}));
    auto refused = world.try_add(inverted);
    EXPECT(!refused && !refused.has_value() && refused.error() == Status::inverted && refused.value_or(*kept) == *kept);
    EXPECT(World().try_add(cube(0)).error() == Status::closed && world.try_add(cube(50), {{2, 0}, {7, 0}}).value_or(*kept).slot == 1);
    EXPECT(world.try_get(*kept)->body == cube(0) && world.try_get(pungwelair::no_handle).error() == Status::stale);
    EXPECT(world.try_info()->boxes == 2 && World().try_info().error() == Status::closed);

    auto first = world.try_first_hit({1, {5, 5, -5}, {0, 0, 1}}), nothing = world.try_first_hit({1, {5, 50, -5}, {0, 0, 1}});
    EXPECT(first && *first && **first == *kept && nothing && !*nothing);
    EXPECT(World().try_first_hit({1, origin, origin}).error() == Status::closed && !World().first_hit({1, origin, origin}));

    const std::array<double, 3> low{0, 0, 0}, high{1, 1, 1}, none{0, std::numeric_limits<double>::quiet_NaN(), 0}, far{0, 0, 40000};
    EXPECT(pungwelair::try_box_around(low, high)->hi.z == 65536 && pungwelair::try_box_around(high, low).error() == Status::inverted);
    EXPECT(pungwelair::try_box_around(none, high).error() == Status::not_a_number);
    EXPECT(pungwelair::try_box_around(low, far).error() == Status::out_of_range);
    const std::array<double, 3> endless{0, 0, std::numeric_limits<double>::infinity()};
    EXPECT(pungwelair::try_box_around_cut(low, endless)->hi.z == INT32_MAX && pungwelair::box_around_cut(low, far)->hi.z == INT32_MAX);
    EXPECT(pungwelair::try_box_around_cut(none, high).error() == Status::not_a_number && !pungwelair::box_around_cut(high, low));
    EXPECT((pungwelair::box_around_cut(std::array{0.0f, -9e9f, 0.0f}, std::array{0.1f, 0.0f, 9e9f}) ==
            pw_box{{0, INT32_MIN, 0}, {6554, 0, INT32_MAX}}));
    EXPECT(*pungwelair::try_fix_below(0.1f) == 6553 && *pungwelair::try_fix_above(0.1f) == 6554);
    EXPECT(*pungwelair::try_fix_below(0.1) == 6553 && *pungwelair::try_fix_above(0.1) == 6554);
    EXPECT(pungwelair::try_fix_below(none[1]).error() == Status::not_a_number);
    EXPECT(pungwelair::try_fix_above(1e9f).error() == Status::out_of_range && pungwelair::try_fix_above(1e9f).value_or(3) == 3);

    std::optional<pw_handle> as_optional = world.try_add(cube(90)), without = world.try_add(inverted);
    EXPECT(as_optional && as_optional->slot == 2 && !without);
}

// Status in words, each its own.
void texts() {
    std::set<std::string_view> words;
    for (pw_status status = PW_OK; status <= PW_SHARED; status++) words.insert(text_of(Status(status)));
    EXPECT(words.size() == PW_SHARED + 1 && words.count("no memory") == 1 && words.count("no status") == 0);
    static_assert(std::string_view(text_of(Status::stale)) == "stale" && std::string_view(text_of(Status(99))) == "no status");
}

// A world with no throw says by itself whether it opened.
void open_worlds() {
    World world(Structure::grid), refused(Structure(99)), closed;
    EXPECT(world.is_open() && world.status() == Status::ok && !refused.is_open() && refused.status() == Status::argument);
    EXPECT(!closed.is_open() && closed.status() == Status::closed && refused.open(Structure::sap) == Status::ok && refused.is_open());
    EXPECT(world.open(Structure::tree) == Status::argument && world.is_open());
    World taken(std::move(world));
    EXPECT(taken.is_open() && !world.is_open() && world.status() == Status::closed);
    world = std::move(taken);
    EXPECT(world.is_open() && !taken.is_open() && world.close() == Status::ok && !world.is_open());

    // Calls of C go to the same world.
    pw_world_info info;
    EXPECT(refused.add(cube(0)) && pw_info(refused.native(), &info) == PW_OK && info.boxes == 1 && info.structure == PW_SAP);
}

// Handles, pairs and boxes are compared and hashed as values, by std's algorithms too.
void values() {
    const pw_handle low{1, 7}, later{1, 8}, high{2, 0};
    EXPECT(low == pw_handle{low} && low != later && low < later && later < high && high > low);
    EXPECT(low <= low && low >= low && low <= later && !(low >= later) && !(low < low) && !(low > low));
    const pw_pair pair{low, high}, other{low, later};
    EXPECT(pair == pw_pair{pair} && pair != other && other < pair && pair >= other && !(pair < pair));
    EXPECT((pw_pair{low, {9, 0}} < pw_pair{later, high}));
    EXPECT(cube(3) == cube(3) && cube(3) != cube(4) && cube(3).lo != cube(3).hi && cube(3).lo == pw_point(cube(3).lo));
    for (const pw_point& point : {pw_point{1, 0, 0}, pw_point{0, 1, 0}, pw_point{0, 0, 1}})
        EXPECT(point != origin && (pw_box{origin, point} != pw_box{origin, origin}) && (pw_box{point, point} != pw_box{origin, point}));
    static_assert(pungwelair::no_handle == pungwelair::no_handle && pungwelair::no_handle > pw_handle{PW_SLOTS, 0});

    std::vector<pw_handle> handles{high, later, low};
    std::sort(handles.begin(), handles.end());
    EXPECT(handles.front() == low && std::find(handles.begin(), handles.end(), high) == handles.end() - 1);
    EXPECT(std::set<pw_pair>({pair, other, pair}).size() == 2 && std::optional(low) == low);
    std::unordered_map<pw_handle, int> numbers{{low, 1}, {later, 2}, {high, 3}};
    EXPECT(numbers.size() == 3 && numbers[later] == 2 && numbers.at(pw_handle{2, 0}) == 3);
    std::unordered_set<pw_pair> pairs{pair, other, pair, {high, low}};
    EXPECT(pairs.size() == 3 && pairs.count(other) == 1);
    // Slots that follow each other and pairs of them spread over the buckets, by their low bits too.
    std::set<std::size_t> low_bits, of_pairs;
    for (uint32_t slot = 0; slot < 1000; slot++) {
        low_bits.insert(std::hash<pw_handle>()({slot * 4096, 0}) % 1024);
        of_pairs.insert(std::hash<pw_pair>()({{slot % 32, 0}, {slot / 32, 0}}));
    }
    EXPECT(low_bits.size() > 500 && of_pairs.size() == 1000);
#if __cplusplus >= 202002L
    std::ranges::sort(handles, std::ranges::greater());
    EXPECT(handles.back() == low && std::ranges::find(handles, later) != handles.end());
#endif
}

// What is taken wherever a vector is.
void lists() {
    World world(Structure::tree);
    std::array<pw_handle, 4> out{};
    EXPECT(world.add({cube(0), cube(5)}, pungwelair::seen_by_all, out).done == 2);
    EXPECT(world.move({out[0], out[1]}, {cube(20), cube(25)}).done == 2 && world.get(out[1])->body == cube(25));
    const pw_handle first = out[0];
    EXPECT(world.remove({first, out[1]}).done == 2 && world.remove({first, out[1]}).status == Status::stale);
    // One handle in braces is that handle, as before there were lists.
    auto alone = world.add(cube(0));
    Status removed = world.remove({*alone});
    EXPECT(removed == Status::ok && world.info()->boxes == 0);
    EXPECT(world.remove({out.data(), 1}).status == Status::stale && world.add({nullptr, 0}, pungwelair::seen_by_all, out));
    const std::array<float, 3> low{0, 0, 0}, high{1, 2, 3};
    EXPECT(pungwelair::box_around(low, high) == pungwelair::box_around(low.data(), high.data()) && !pungwelair::box_around(high, low));
    auto box = pungwelair::box_around(std::array{0.0, 0.0, 0.0}, std::array{1.0, 2.0, 3.0});
    EXPECT(box && (*box == pw_box{origin, {65536, 131072, 196608}}));
#if __cplusplus >= 202002L
    const std::vector boxes{cube(0), cube(5), cube(10)};
    EXPECT(world.add(std::span(boxes), pungwelair::seen_by_all, std::span(out).first(3)).done == 3);
    EXPECT(world.move(std::span<const pw_handle>(out).first(2), std::span<const pw_box, 2>(boxes.data(), 2)).done == 2);
    std::array<pw_pair, 4> pairs{};
    EXPECT(world.update().pairs == 3 && world.pairs(1, std::span(pairs)).count == 2 && pairs[1].b == out[2]);
    EXPECT(world.hits({PW_REGION, 1, cube(0).lo, cube(0).hi}, std::span<pw_handle>()).count == 3);
#endif
}

// Nothing throws, and says so.
static_assert(noexcept(World(Structure::tree)) && noexcept(World().open(Structure::tree)) && noexcept(World().close()));
static_assert(noexcept(World().is_open()) && noexcept(World().status()) && noexcept(World().native()));
static_assert(noexcept(World().add(inverted)) && noexcept(World().try_add(inverted)) && noexcept(World().move({}, inverted)));
static_assert(noexcept(World().add(std::declval<std::vector<pw_box>&>(), {}, std::declval<std::vector<pw_handle>&>())));
static_assert(noexcept(World().move(std::declval<std::vector<pw_handle>&>(), std::declval<std::vector<pw_box>&>())));
static_assert(noexcept(World().ray_first({})) && noexcept(World().try_cast_first({})) && noexcept(pungwelair::Hit{}.normal()));
static_assert(noexcept(World().ray_meets({}, {})) && noexcept(World().try_cast_meets({}, {})) && noexcept(World().square_to({}, {})));
static_assert(noexcept(World().nearest_box({}, std::declval<std::vector<pw_handle>&>())) && noexcept(World().square_apart({}, {})));
static_assert(noexcept(World().hits_each({pw_query{}}, std::declval<std::vector<pw_handle>&>(), std::declval<std::vector<std::size_t>&>())));
static_assert(noexcept(World().ray_first_each({pw_ray{}}, std::declval<std::vector<Hit>&>())) && noexcept(Hit{}.has_box()));
static_assert(noexcept(World().share(std::declval<Reader&>())) && noexcept(Reader()) && noexcept(Reader().open()) && noexcept(Reader().close()));
static_assert(noexcept(Reader().join(std::declval<Reader&>())) && noexcept(Reader().leave()) && noexcept(Reader().leave(std::declval<World&>())));
static_assert(noexcept(Reader().ray_first({})) && noexcept(Reader().is_reading()) && noexcept(Reader().is_open()) && noexcept(Reader().native()));
static_assert(std::is_nothrow_move_constructible_v<Reader> && std::is_nothrow_move_assignable_v<Reader>);
static_assert(!std::is_copy_constructible_v<Reader> && !std::is_copy_assignable_v<Reader>);
static_assert(noexcept(World().pairs_now(0, std::declval<std::vector<pw_pair>&>())));
static_assert(noexcept(World().mask({}, {})) && noexcept(World().regroup({}, {})));
static_assert(noexcept(World().remove(pw_handle{})) && noexcept(World().remove({pw_handle{}, pw_handle{}})));
static_assert(noexcept(World().get({})) && noexcept(World().try_get({})) && noexcept(World().info()) && noexcept(World().try_info()));
static_assert(noexcept(World().update()) && noexcept(World().mark()) && noexcept(World().back()));
static_assert(noexcept(World().forget()) && noexcept(World().at(0)) && noexcept(World().try_at(0)));
static_assert(noexcept(World().boxes()) && noexcept(++World().boxes().begin()) && noexcept(World().boxes().end()));
static_assert(noexcept(World().pairs(0, std::declval<std::vector<pw_pair>&>())));
static_assert(noexcept(World().events(0, std::declval<std::vector<pw_told>&>())));
static_assert(noexcept(World().changes(0, std::declval<std::vector<pw_told>&>())));
static_assert(noexcept(World().hits({}, std::declval<std::vector<pw_handle>&>())));
static_assert(noexcept(World().ray_hits({}, std::declval<std::vector<pw_handle>&>())));
static_assert(noexcept(World().cast_hits({}, std::declval<std::vector<pw_handle>&>())));
static_assert(noexcept(World().nearest({}, std::declval<std::vector<pw_handle>&>())));
static_assert(noexcept(World().first_hit({})) && noexcept(World().try_first_hit({})));
static_assert(noexcept(event_of({})) && noexcept(text_of(Status::ok)));
static_assert(noexcept(pungwelair::fix_below(1.0f)) && noexcept(pungwelair::fix_above(1.0)) && noexcept(pungwelair::try_fix_below(1.0)));
static_assert(noexcept(pungwelair::box_around(std::array{0.0f, 0.0f, 0.0f}, std::array{0.0f, 0.0f, 0.0f})));
static_assert(std::is_nothrow_move_constructible_v<World> && std::is_nothrow_move_assignable_v<World>);
static_assert(!std::is_copy_constructible_v<World>);

// A program that had operators of its own for the structs of C keeps them.
namespace program {

bool operator==(pw_handle a, pw_handle b) { return a.slot % 10 == b.slot % 10; }
bool operator<(const pw_pair& a, const pw_pair& b) { return a.b.slot < b.b.slot; }

void own_operators() {
    EXPECT((pw_handle{3, 0} == pw_handle{13, 1}) && !(pw_handle{3, 0} == pw_handle{4, 0}));
    EXPECT((pw_pair{{9, 0}, {1, 0}} < pw_pair{{0, 0}, {2, 0}}));
}

}  // namespace program

void version() {
    static_assert(PW_VERSION_MAJOR == 0 && PW_VERSION_MINOR >= 1 && PW_VERSION_PATCH >= 0);
    std::string numbers = std::to_string(PW_VERSION_MAJOR);
    for (int part : {PW_VERSION_MINOR, PW_VERSION_PATCH}) numbers += "." + std::to_string(part);
    EXPECT(numbers == PW_VERSION);
    static_assert(PW_VERSION_NUMBER == PW_VERSION_MAJOR * 1000000 + PW_VERSION_MINOR * 1000 + PW_VERSION_PATCH);
    EXPECT(pungwelair::version() == PW_VERSION_NUMBER);
}

void moved_worlds() {
    World first(Structure::plain), second;
    EXPECT(first.add(cube(0)) && second.update().status == Status::closed);
    second = std::move(first);
    EXPECT(first.update().status == Status::closed && second.info() && second.info()->boxes == 1);
    World third(std::move(second));
    EXPECT(!second.info() && third.update().status == Status::ok);
}

void floats() {
    const float tenths[3] = {0.1f, -0.1f, 0};
    const double one[3] = {1, 1, 1}, less[3] = {1, 0, 1};
    auto around = pungwelair::box_around(tenths, tenths);
    EXPECT(around && around->lo.x == 6553 && around->hi.x == 6554 && around->lo.y == -6554 && around->hi.z == 0);
    EXPECT(!pungwelair::box_around(one, less) && pungwelair::box_around(less, one) && pungwelair::box_around(one, one)->lo.x == 65536);
    EXPECT(pungwelair::fix_below(0.1f) == 6553 && pungwelair::fix_above(0.1f) == 6554 && !pungwelair::fix_above(32768.0f));
    /* A double isn't narrowed on the way: as a float this one is 30,000. */
    EXPECT(pungwelair::fix_below(29999.99999) == 30000 * 65536 - 1 && pungwelair::fix_above(30000.00001) == 30000 * 65536 + 1);
}

// Each thread has a world of its own, made by another.
void several_threads() {
    std::vector<std::thread> threads;
    std::array<std::size_t, std::size(structures)> pairs{};
    for (std::size_t k = 0; k < pairs.size(); k++)
        threads.emplace_back([&pairs, k, world = World(structures[k])]() mutable {
            bool added = true;
            for (int32_t x = 0; x < 500; x++) added = world.add(cube(x * 5)) && added;
            if (added) pairs[k] = world.update().pairs;
        });
    for (auto& thread : threads) thread.join();
    for (std::size_t count : pairs) EXPECT(count == 499 + 498);
}

// Threads ask one world, each by a reader, and leave at once: one of them has the world.
void several_readers() {
    World world(Structure::grid);
    std::vector<pw_handle> handles;
    for (int32_t x = 0; x < 300; x++) handles.push_back(world.add(cube(x * 20)).value_or(pungwelair::no_handle));
    std::vector<Reader> readers(4);
    for (int round = 0; round < 20; round++) {
        std::vector<std::thread> threads;
        std::array<std::optional<World>, 4> back;
        std::array<long, 4> wrong{};
        EXPECT(world.share(readers[0]) == Status::ok);
        for (std::size_t k = 1; k < readers.size(); k++) EXPECT(readers[k].join(readers[0]) == Status::ok);
        for (std::size_t k = 0; k < readers.size(); k++)
            threads.emplace_back([&handles, &back = back[k], &wrong = wrong[k], &reader = readers[k]] {
                for (std::size_t slot = 0; slot < handles.size(); slot++) {
                    auto hit = reader.ray_first({1, {int32_t(slot) * 20 + 5, 5, 30}, {0, 0, -1}});
                    wrong += !hit || hit->handle != handles[slot];
                }
                back = reader.leave();
            });
        for (auto& thread : threads) thread.join();
        long worlds = 0;
        for (auto& one : back)
            if (one) worlds++, world = std::move(*one);
        EXPECT(worlds == 1 && world.is_open() && world.info()->boxes == 300);
        for (long count : wrong) EXPECT(count == 0);
    }
}

}  // namespace

int main() {
    for (Structure structure : structures) {
        changes_and_frames(structure);
        questions(structure);
        first_hits(structure);
        meetings(structure);
        nearest_to_boxes(structure);
        many_at_once(structure);
        boxes_of_no_group(structure);
        readers_of_a_world(structure);
        pairs_within_a_frame(structure);
    }
    readers_that_end();
    marks_and_refusals();
    forgotten_marks();
    boxes_by_slots();
    regrouped();
    reasons();
    texts();
    open_worlds();
    values();
    lists();
    program::own_operators();
    version();
    moved_worlds();
    floats();
    several_threads();
    several_readers();
    return tested("verbs of C++");
}
