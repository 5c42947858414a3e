// A Bullet broad phase whose requests of memory are refused, each in turn and then several in a row: those of the library, and then those
// of C++'s own heap. The program goes on. Of the first the user is told what couldn't be kept, and questions find all the same. The second
// leave the call as std::bad_alloc, and it may be made again. Once there is memory again the pairs are those that meet.
#include "../tests/beside_dbvt.hpp"
#include "pungwelair_broadphase.hpp"
#include <BulletCollision/CollisionDispatch/btGhostObject.h>
#include <cstdio>
#include <cstdlib>
#include <new>
#include <random>
#include <set>

namespace {

using pungwelair::BulletBroadphase;
using pungwelair::Status;
using pungwelair::Structure;

// Which requests are refused: `refused` of them, behind `granted` ones.
struct Heap {
    long granted = -1, refused = 0, asked = 0;
    bool gives() {
        asked++;
        if (granted > 0) granted--;
        else if (granted == 0 && refused > 0) return refused--, false;
        return true;
    }
} of_library, of_cpp;
// Requests of the test itself don't count, nor those of its callbacks.
bool is_watched;
long thrown;
int failures;

void expect(bool is_so, const char* what, long number) {
    if (!is_so && ++failures <= 20) std::printf("request %ld: not so: %s\n", number, what);
}

void* get(std::size_t size, void* before) {
    if (!of_library.gives()) return nullptr;
    return before ? std::realloc(before, size) : std::malloc(size);
}

}  // namespace

// C++'s own heap. Bullet takes its memory from malloc.
[[gnu::noinline]] void* operator new(std::size_t size) {
    void* given = is_watched && !of_cpp.gives() ? nullptr : std::malloc(size ? size : 1);
    if (!given) throw std::bad_alloc();
    return given;
}
[[gnu::noinline]] void operator delete(void* given) noexcept { std::free(given); }
[[gnu::noinline]] void operator delete(void* given, std::size_t) noexcept { std::free(given); }

// The library's heap.
extern "C" {
struct tried {
    bool ok;
    void* p;
};
static char nothing;
static tried told(void* p) { return {p != nullptr, p ? p : &nothing}; }
tried rattle_alloc(std::size_t size, std::size_t align) { return told(get(size ? size : align, nullptr)); }
tried rattle_realloc(void* p, std::size_t, std::size_t size, std::size_t align) { return told(get(size ? size : align, p)); }
void rattle_dealloc(void* p) { std::free(p); }
}

namespace {

struct Found : btBroadphaseRayCallback {
    std::multiset<int> ids;
    bool process(const btBroadphaseProxy* proxy) override {
        bool was_watched = std::exchange(is_watched, false);
        ids.insert(proxy->m_uniqueId);
        is_watched = was_watched;
        return true;
    }
};

// Makes a call, and if std::bad_alloc leaves it makes it again, some times. Whether it went well in the end.
template <class Call>
bool made(Call call) {
    for (int tries = 0; tries < 8; tries++) {
        is_watched = true;
        try {
            call();
            is_watched = false;
            return true;
        } catch (const std::bad_alloc&) {
            is_watched = false;
            thrown++;
        }
    }
    return false;
}

// The pairs in the cache are those that meet and may, found by testing all. dbvt has those that meet.
void expect_pairs(BulletBroadphase& broadphase, BesideDbvt& beside, const std::vector<btBroadphaseProxy*>& proxies, long first) {
    auto* cache = broadphase.getOverlappingPairCache();
    int met = beside.compare(cache, proxies, [&](bool is_so, const char* what) { expect(is_so, what, first); });
    expect(cache->getNumOverlappingPairs() == met, "and no other", first);
}

// Some steps of a small world, with the number of the first request to a heap that is refused. How many requests it made.
long play(Structure structure, Heap& heap, long first, long in_a_row) {
    of_library = of_cpp = Heap();
    int told = 0;
    BulletBroadphase::Options options;
    options.refused = [&](Status, void*) { told++; };
    options.has_collision_objects = true;
    btCollisionObject body;
    btGhostObject ghost;
    BulletBroadphase broadphase(structure, options);
    BesideDbvt beside;
    heap.granted = first;
    heap.refused = in_a_row;
    std::vector<btBroadphaseProxy*> proxies;
    std::mt19937 random(3);
    auto place = [&](unsigned room) { return btVector3(btScalar(random() % room), btScalar(random() % room), btScalar(random() % room)); };
    auto add = [&] {
        btVector3 low = place(9);
        int was = told, group = 1 << (random() % 3);
        void* object = proxies.size() % 5 == 4 ? static_cast<btCollisionObject*>(&ghost) : &body;
        btBroadphaseProxy* proxy = nullptr;
        bool is_made = made([&] { proxy = broadphase.createProxy(low, low + btVector3(2, 2, 2), 0, object, group, -1, nullptr); });
        expect(proxy || told > was || !is_made, "a proxy that isn't made is told", first);
        if (proxy) proxies.push_back(proxy);
    };
    for (int k = 0; k < 24; k++) add();
    for (int step = 0; step < 8; step++) {
        for (std::size_t k = 0; k < proxies.size(); k += 2) {
            btVector3 by = place(3) - btVector3(1, 1, 1);
            btVector3 low = proxies[k]->m_aabbMin + by, high = proxies[k]->m_aabbMax + by;
            made([&] { broadphase.setAabb(proxies[k], low, high, nullptr); });
        }
        if (!proxies.empty()) {
            long before = thrown;
            made([&] { broadphase.destroyProxy(proxies.front(), nullptr); });
            expect(thrown == before, "a proxy goes without memory", first);
            proxies.erase(proxies.begin());
        }
        add();
        if (!proxies.empty()) proxies.back()->m_collisionFilterMask = step;

        std::multiset<int> all;
        btVector3 low = place(6), high = low + btVector3(3, 3, 3);
        for (auto* proxy : proxies)
            if (TestAabbAgainstAabb2(low, high, proxy->m_aabbMin, proxy->m_aabbMax)) all.insert(proxy->m_uniqueId);
        Found region, ray;
        auto asks = [&](Found& found, auto&& ask) {
            return made([&] {
                found.ids.clear();
                ask();
            });
        };
        bool is_asked = asks(region, [&] { broadphase.aabbTest(low, high, region); });
        expect(!is_asked || region.ids == all, "a region finds all that it meets", first);
        ray.m_rayDirectionInverse.setValue(BT_LARGE_FLOAT, BT_LARGE_FLOAT, 1);
        ray.m_signs[0] = ray.m_signs[1] = ray.m_signs[2] = 0;
        ray.m_lambda_max = 40;
        btVector3 from(4, 4, -20), to(4, 4, 20);
        bool is_cast = asks(ray, [&] { broadphase.rayTest(from, to, ray, btVector3(0, 0, 0), btVector3(0, 0, 0)); });
        all.clear();
        for (auto* proxy : proxies)
            if (TestAabbAgainstAabb2(from, to, proxy->m_aabbMin, proxy->m_aabbMax)) all.insert(proxy->m_uniqueId);
        expect(!is_cast || ray.ids == all, "a ray finds all that it meets", first);

        int was = told;
        bool is_ended = made([&] { broadphase.calculateOverlappingPairs(nullptr); });
        if (is_ended && told == was) expect_pairs(broadphase, beside, proxies, first);
    }
    long asked = heap.asked;
    // There is memory again.
    of_library = of_cpp = Heap();
    broadphase.calculateOverlappingPairs(nullptr);
    expect_pairs(broadphase, beside, proxies, first);
    expect(proxies.size() + std::size_t(in_a_row) >= 20, "what can be kept is kept", first);
    for (auto* proxy : proxies) broadphase.destroyProxy(proxy, nullptr);
    return asked;
}

}  // namespace

int main() {
    long plays = 0;
    for (Heap* heap : {&of_library, &of_cpp})
        for (auto structure : {Structure::plain, Structure::sap, Structure::tree, Structure::grid, Structure::skin})
            for (long in_a_row : {1, 2, 5, 1000000}) {
                long requests = play(structure, *heap, -1, 0), before = thrown;
                // A few hundred of them, the first ones all.
                for (long first = 0; first < requests; first += first < 200 ? 1 : 1 + requests / 200) {
                    play(structure, *heap, first, in_a_row);
                    plays++;
                }
                bool is_thrown = thrown > before;
                expect(is_thrown == (heap == &of_cpp), "std::bad_alloc leaves a call if C++'s heap refuses, and not else", requests);
            }
    std::printf("refused under Bullet: %ld plays, %ld calls left by std::bad_alloc, %d failed\n", plays, thrown, failures);
    return failures != 0;
}
