// Four threads ask one const World, and then one const Reader, everything that a const call asks. They take turns, so each has the answers
// that one thread has alone. It is built with the sanitizer for threads, if the compiler has one: without the lock of `Questions` a thread
// finds the world taken out of its words by another, and the sanitizer sees two threads in one buffer.
#include "expect.h"
#include "pungwelair.hpp"
#include <algorithm>
#include <random>
#include <thread>
#include <vector>

namespace {

using pungwelair::Reader;
using pungwelair::Status;
using pungwelair::Structure;
using pungwelair::World;

constexpr std::size_t boxes = 200, threads = 4, rounds = 40;
constexpr int32_t extent = 400;

pw_box cube(int32_t x, int32_t y, int32_t z, int32_t size = 12) { return {{x, y, z}, {x + size, y + size, z + size}}; }

// All that was answered, as numbers in a row.
struct Answers {
    std::vector<uint64_t> row;

    void put(Status status) { row.push_back(uint64_t(status)); }
    void put(pw_handle handle) { row.push_back(uint64_t(handle.slot) << 32 | handle.generation); }
    void put(const pw_pair& pair) { put(pair.a), put(pair.b); }
    void put(const pw_told& told) { row.push_back(told.event), put(told.pair); }
    void put(const pungwelair::Hit& hit) { put(hit.handle), row.push_back(uint64_t(hit.num)), row.push_back(uint64_t(hit.den)); }
    void put(const pw_square& square) { row.push_back(square.low), row.push_back(square.high); }
    void put(const pw_live& live) { row.push_back(uint64_t(uint32_t(live.body.lo.x)) << 32 | live.masks.is); }
    template <class Items>
    void put(Status status, std::size_t count, const Items& items) {
        put(status);
        row.push_back(count);
        for (std::size_t k = 0; k < std::min(count, items.size()); k++) put(items[k]);
    }
    template <class Value>
    void put(const pungwelair::Result<Value>& result) {
        put(result.error());
        if (result) put(*result);
    }
    template <class Value>
    void put(const std::optional<Value>& value) {
        row.push_back(value.has_value());
        if (value) put(*value);
    }
};

// What a World and a Reader are asked alike.
template <class Asked>
void ask_by(const Asked& asked, std::size_t number, pw_handle handle, Answers& answers) {
    std::mt19937 random(uint32_t(number) + 1);
    auto at = [&] { return int32_t(random() % extent); };
    pw_box region = cube(at(), at(), at(), 90), moved = cube(at(), at(), at());
    pw_ray ray{1, {at(), at(), -50}, {at() - 200, at() - 200, 300}};
    pw_cast cast{1, moved, {at() - 200, at() - 200, at() - 200}};
    pw_query query{PW_REGION, 3, region.lo, region.hi}, point{PW_POINT, 3, region.lo, region.lo};
    std::vector<pw_handle> found(boxes);
    auto told = [&](pungwelair::Count count) { answers.put(count.status, count.count, found); };
    told(asked.hits(query, found));
    told(asked.ray_hits(ray, found));
    told(asked.cast_hits(cast, found));
    told(asked.nearest({1, 9, region.lo}, found));
    told(asked.nearest_box({1, 9, region, {1, 0}}, found));
    std::array<std::size_t, 2> ends{};
    pungwelair::Batch batch = asked.hits_each({query, point}, found, ends);
    answers.put(batch.status, ends[1], found);
    std::array<pungwelair::Hit, 2> hits{};
    batch = asked.ray_first_each({ray, ray}, hits);
    answers.put(batch.status, batch.done, hits);
    batch = asked.cast_first_each({cast, cast}, hits);
    answers.put(batch.status, batch.done, hits);
    answers.put(asked.try_ray_first(ray));
    answers.put(asked.try_cast_first(cast));
    answers.put(asked.try_first_hit(ray));
    answers.put(asked.try_ray_meets(ray, handle));
    answers.put(asked.try_cast_meets(cast, handle));
    answers.put(asked.try_square_to(region.lo, handle));
    answers.put(asked.try_square_apart(region, handle));
}
void ask(const Reader& reader, std::size_t number, pw_handle handle, Answers& answers) { ask_by(reader, number, handle, answers); }
void ask(const World& world, std::size_t number, pw_handle handle, Answers& answers) {
    ask_by(world, number, handle, answers);
    std::vector<pw_pair> pairs(4000);
    std::vector<pw_told> changes(4000);
    auto info = world.try_info();
    answers.put(info.error());
    answers.row.push_back(info->boxes);
    answers.put(world.try_get(handle));
    auto placed = world.try_at(uint32_t(number % boxes));
    answers.put(placed.error()), answers.put(placed->handle), answers.put(placed->live);
    auto count = world.pairs(0, pairs);
    answers.put(count.status, count.count, pairs);
    // Boxes have moved since the frame ended, so this one searches.
    count = world.pairs_now(0, pairs);
    answers.put(count.status, count.count, pairs);
    count = world.events(0, changes);
    answers.put(count.status, count.count, changes);
    count = world.changes(0, changes);
    answers.put(count.status, count.count, changes);
    if (number % 8 == 0)
        for (const auto& [one, live] : world.boxes()) answers.put(one), answers.put(live);
}

// What each thread is told is what one thread alone is told.
template <class Asked>
void several_threads(const Asked& asked, const std::vector<pw_handle>& handles) {
    std::vector<Answers> wanted(rounds), all(threads * rounds);
    for (std::size_t number = 0; number < rounds; number++) ask(asked, number, handles[number], wanted[number]);
    std::vector<std::thread> askers;
    for (std::size_t thread = 0; thread < threads; thread++)
        askers.emplace_back([&, thread] {
            for (std::size_t k = 0; k < rounds; k++) {
                std::size_t number = (k + thread * 7) % rounds;
                ask(asked, number, handles[number], all[thread * rounds + number]);
            }
        });
    for (auto& asker : askers) asker.join();
    for (std::size_t k = 0; k < all.size(); k++) EXPECT(all[k].row == wanted[k % rounds].row);
}

void ask_over(Structure structure) {
    World world(structure);
    std::mt19937 random(5);
    auto at = [&] { return int32_t(random() % extent); };
    std::vector<pw_handle> handles(boxes);
    std::vector<pw_box> bodies(boxes);
    for (int frame = 0; frame < 2; frame++) {
        for (auto& body : bodies) body = cube(at(), at(), at(), 12 + at() % 30);
        if (frame == 0) EXPECT(world.add(bodies, pungwelair::seen_by_all, handles));
        EXPECT(world.move(handles, bodies) && world.update());
    }
    EXPECT(world.move({handles.data(), 20}, {bodies.data() + 40, 20}));
    several_threads(world, handles);
    Reader reader;
    EXPECT(world.share(reader) == Status::ok);
    several_threads(reader, handles);
    EXPECT(reader.leave(world) == Status::ok && world.is_open());
}

}  // namespace

int main() {
    for (auto structure : {Structure::plain, Structure::sap, Structure::tree, Structure::grid, Structure::skin}) ask_over(structure);
    return tested("const questions of C++");
}
