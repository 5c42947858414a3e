// Which pairs a Bullet world has over the library and over btDbvtBroadphase, if both are told the same. There are groups of the user's
// own, filters that are written into proxies, filter callbacks that come, change their mind and go, pairs that are taken out, ghosts, and
// pair caches of the user's. At each step the library's cache must have every pair whose boxes meet and which the filter allows, found by
// testing all, and no other. A listener of the cache's own sees that nothing is told to it twice.
#include "pungwelair.h"

// Each frame that a broad phase ends is counted.
static long frames_ended;
static inline pw_status counted_update(pw_world* world, pw_counts* counts) {
    frames_ended++;
    return pw_update(world, counts);
}
#define pw_update counted_update

#include "../tests/beside_dbvt.hpp"
#include "pungwelair_broadphase.hpp"
#include <BulletCollision/CollisionDispatch/btGhostObject.h>
#include <BulletDynamics/btBulletDynamicsCommon.h>
#include <cstdio>
#include <random>
#include <set>

namespace {

using pungwelair::BulletBroadphase;
using pungwelair::Structure;

int failures;

void expect(bool is_so, const char* name, const char* what, int step = 0) {
    if (!is_so && ++failures <= 20) std::printf("%s, step %d: not so: %s\n", name, step, what);
}

// Boxes here are rounded outward, so some more may touch.
bool meet(const btBroadphaseProxy* a, const btBroadphaseProxy* b, btScalar by = 0) {
    btVector3 margin(by, by, by);
    return TestAabbAgainstAabb2(a->m_aabbMin - margin, a->m_aabbMax + margin, b->m_aabbMin, b->m_aabbMax);
}

using Key = std::pair<int, int>;
Key key(const btBroadphaseProxy* a, const btBroadphaseProxy* b) { return std::minmax(a->m_uniqueId, b->m_uniqueId); }

// Hears what a pair cache takes in and gives up.
struct Listener final : btOverlappingPairCallback {
    std::set<Key> kept;
    int told_twice = 0;
    btBroadphasePair* addOverlappingPair(btBroadphaseProxy* a, btBroadphaseProxy* b) override {
        told_twice += !kept.insert(key(a, b)).second;
        return nullptr;
    }
    void* removeOverlappingPair(btBroadphaseProxy* a, btBroadphaseProxy* b, btDispatcher*) override {
        told_twice += kept.erase(key(a, b)) != 1;
        return nullptr;
    }
    void removeOverlappingPairsContainingProxy(btBroadphaseProxy*, btDispatcher*) override {}
};

// Lets pairs in by a rule of its own, whatever masks say.
struct Rule final : btOverlapFilterCallback {
    int divisor = 2, left = 0;
    bool needBroadphaseCollision(btBroadphaseProxy* a, btBroadphaseProxy* b) const override {
        return (a->m_uniqueId + b->m_uniqueId) % divisor == left;
    }
};

// A cache whose filter is its own, and needs no callback.
struct OddCache final : btHashedOverlappingPairCache {
    bool needsBroadphaseCollision(btBroadphaseProxy* a, btBroadphaseProxy* b) const { return (a->m_uniqueId ^ b->m_uniqueId) & 1; }
    btBroadphasePair* addOverlappingPair(btBroadphaseProxy* a, btBroadphaseProxy* b) override {
        return needsBroadphaseCollision(a, b) ? btHashedOverlappingPairCache::addOverlappingPair(a, b) : nullptr;
    }
};

// The same boxes in two broad phases.
struct Twins {
    const char* name;
    BulletBroadphase ours;
    btDbvtBroadphase theirs;
    Listener listener;
    std::vector<btBroadphaseProxy*> one, other;
    std::mt19937 random{7};
    Rule rule;
    long met = 0, they_miss = 0;

    Twins(const char* name, Structure structure, BulletBroadphase::Options options = BulletBroadphase::Options())
        : name(name), ours(structure, options) {
        cache().setInternalGhostPairCallback(&listener);
    }
    ~Twins() {
        while (!one.empty()) remove(one.size() - 1);
        expect(cache().getNumOverlappingPairs() == 0, name, "no pair is left without boxes");
    }
    btOverlappingPairCache& cache() { return *ours.getOverlappingPairCache(); }
    int below(int most) { return int(random() % unsigned(most)); }
    btScalar part(btScalar most) { return most * btScalar(below(4096)) / 4096; }
    btVector3 place(btScalar room) { return btVector3(part(room), part(room), part(room)); }

    void add(const btVector3& low, const btVector3& by, int group, int mask) {
        one.push_back(ours.createProxy(low, low + by, 0, nullptr, group, mask, nullptr));
        other.push_back(theirs.createProxy(low, low + by, 0, nullptr, group, mask, nullptr));
    }
    void remove(std::size_t k) {
        ours.destroyProxy(one[k], nullptr);
        theirs.destroyProxy(other[k], nullptr);
        one.erase(one.begin() + long(k));
        other.erase(other.begin() + long(k));
    }
    void move(std::size_t k, const btVector3& by) {
        btVector3 low = one[k]->m_aabbMin + by, high = one[k]->m_aabbMax + by;
        ours.setAabb(one[k], low, high, nullptr);
        theirs.setAabb(other[k], low, high, nullptr);
    }
    void move_all(btScalar most) {
        for (std::size_t k = 0; k < one.size(); k++) {
            btVector3 by = place(2 * most) - btVector3(most, most, most);
            // Some along one axis alone.
            if (k % 4 != 3) by *= btVector3(k % 4 == 0, k % 4 == 1, k % 4 == 2);
            move(k, by);
        }
    }
    void write(std::size_t k, int group, int mask) {
        one[k]->m_collisionFilterGroup = other[k]->m_collisionFilterGroup = group;
        one[k]->m_collisionFilterMask = other[k]->m_collisionFilterMask = mask;
    }
    void drop(std::size_t k) {
        cache().removeOverlappingPairsContainingProxy(one[k], nullptr);
        theirs.getOverlappingPairCache()->removeOverlappingPairsContainingProxy(other[k], nullptr);
    }
    void filter_by(btOverlapFilterCallback* filter) {
        cache().setOverlapFilterCallback(filter);
        theirs.getOverlappingPairCache()->setOverlapFilterCallback(filter);
    }

    // Whether a pair that may no longer stays until its boxes part, as over dbvt: if a callback changed its mind.
    void step(int number, bool refused_may_stay = false) {
        ours.calculateOverlappingPairs(nullptr);
        theirs.calculateOverlappingPairs(nullptr);
        std::set<Key> in_cache;
        btBroadphasePairArray& pairs = cache().getOverlappingPairArray();
        for (int k = 0; k < pairs.size(); k++) {
            btBroadphaseProxy *a = pairs[k].m_pProxy0, *b = pairs[k].m_pProxy1;
            expect(in_cache.insert(key(a, b)).second, name, "a pair stands in the cache once", number);
            expect(meet(a, b, btScalar(0.001)), name, "a pair in the cache meets", number);
            expect(refused_may_stay || cache().needsBroadphaseCollision(a, b), name, "a pair in the cache may", number);
        }
        for (std::size_t a = 0; a < one.size(); a++)
            for (std::size_t b = 0; b < a; b++) {
                if (!meet(one[a], one[b]) || !cache().needsBroadphaseCollision(one[a], one[b])) continue;
                met++;
                they_miss += !theirs.getOverlappingPairCache()->findPair(other[a], other[b]);
                expect(in_cache.count(key(one[a], one[b])) == 1, name, "a pair that meets and may is in the cache", number);
            }
        if (cache().hasDeferredRemoval()) return;
        expect(listener.kept == in_cache, name, "the cache was told what it has", number);
        expect(listener.told_twice == 0, name, "nothing is told twice", number);
    }
};

void crowd(Twins& t, int boxes, btScalar room, int groups) {
    const int masks[] = {-1, -1, 15, 7, 9, 6, 3, 12, 0, 5};
    for (int k = 0; k < boxes; k++) t.add(t.place(room), btVector3(1.2f, 1.2f, 1.2f), 1 << (k % groups), masks[t.below(10)]);
}

// What a user does before each step.
struct Case {
    const char* name;
    int boxes, steps;
    void (*before)(Twins&, int step);
    bool they_miss_none, refused_may_stay;
};

void stir(Twins& t, int step) {
    if (step % 3 != 2) t.move_all(btScalar(0.3));
}
const Case cases[] = {
    {"many groups and masks", 400, 20, [](Twins& t, int step) { stir(t, step); }, true, false},
    {"written into boxes that move or rest", 160, 40, [](Twins& t, int step) {
         stir(t, step);
         for (std::size_t k = std::size_t(t.below(9)); k < t.one.size(); k += 9) t.write(k, 1 << t.below(5) & 15, t.below(17) - 1);
     }, false, false},
    {"written between two steps at rest", 160, 30, [](Twins& t, int step) {
         if (step > 0) t.write(std::size_t(t.below(160)), 1 << t.below(4), t.below(2) * 15);
     }, false, false},
    {"taken out", 160, 40, [](Twins& t, int step) {
         stir(t, step);
         for (std::size_t k = std::size_t(t.below(9)); k < t.one.size(); k += 9) t.drop(k);
         if (step % 5 == 4) t.cache().cleanProxyFromPairs(t.one[3], nullptr);
     }, false, false},
    {"come and go", 160, 40, [](Twins& t, int step) {
         stir(t, step);
         for (int k = 0; k < 5; k++) t.remove(std::size_t(t.below(int(t.one.size()))));
         for (int k = 0; k < 5; k++) t.add(t.place(12), t.place(3), 1 << t.below(4), -1);
     }, false, false},
    {"a callback lets in what masks refuse", 120, 20, [](Twins& t, int step) {
         for (std::size_t k = 0; step == 0 && k < t.one.size(); k++) t.write(k, 1, 0);
         if (step == 4) t.filter_by(&t.rule);
         stir(t, step);
     }, false, false},
    {"a callback that comes and goes", 120, 30, [](Twins& t, int step) {
         if (step % 10 == 4) t.filter_by(&t.rule);
         if (step % 10 == 8) t.filter_by(nullptr);
         if (step % 4 != 0) stir(t, step);
     }, false, false},
    {"one callback in place of another", 120, 30, [](Twins& t, int step) {
         static Rule thirds;
         thirds.divisor = 3;
         t.filter_by(step % 10 < 5 ? &t.rule : &thirds);
         if (step % 4 == 1) stir(t, step);
     }, false, false},
    {"a callback that changes its mind", 120, 30, [](Twins& t, int step) {
         t.filter_by(&t.rule);
         t.rule.left = step / 6 % 2;
         t.move_all(btScalar(0.01));
     }, false, true},
    {"all of these", 200, 60, [](Twins& t, int step) {
         stir(t, step);
         if (step % 12 == 5) t.filter_by(&t.rule);
         if (step % 12 == 9) t.filter_by(nullptr);
         if (step % 2 == 0) t.drop(std::size_t(t.below(int(t.one.size()))));
         t.remove(std::size_t(t.below(int(t.one.size()))));
         t.add(t.place(12), t.place(3), 1 << t.below(4), t.below(16));
         if (step % 3 == 0) t.drop(std::size_t(t.below(int(t.one.size()))));
         t.write(std::size_t(t.below(int(t.one.size()))), 1 << t.below(4), t.below(16));
     }, false, false},
};

void play(const Case& c, Twins& t) {
    crowd(t, c.boxes, 12, 4);
    for (int step = 0; step < c.steps; step++) {
        c.before(t, step);
        t.step(step, c.refused_may_stay);
    }
    expect(t.met > 300, c.name, "pairs met");
    expect(!c.they_miss_none || t.they_miss == 0, c.name, "dbvt has them too");
}

// A step in which nothing was told ends no frame, and so asks no filter again. Whatever is told makes it end one.
void at_rest(Structure structure) {
    struct Refusing final : btOverlapFilterCallback {
        mutable long asked = 0;
        bool needBroadphaseCollision(btBroadphaseProxy*, btBroadphaseProxy*) const override { return asked++, false; }
    } refusing;
    Twins t("at rest", structure);
    crowd(t, 100, 9, 4);
    t.filter_by(&refusing);
    t.ours.calculateOverlappingPairs(nullptr);
    auto is_frame = [&](auto&& before) {
        before();
        long frames = frames_ended, asked = refusing.asked;
        t.ours.calculateOverlappingPairs(nullptr);
        expect((refusing.asked > asked) == (frames_ended > frames), t.name, "a filter is asked again in a frame");
        return frames_ended - frames;
    };
    const btVector3 low = t.one[0]->m_aabbMin, high = t.one[0]->m_aabbMax, by(btScalar(0.25), 0, 0);
    expect(is_frame([] {}) == 0, t.name, "a step after nothing ends no frame");
    expect(is_frame([&] { t.ours.setAabb(t.one[0], low, high, nullptr); }) == 0, t.name, "nor one after a box that stays");
    expect(is_frame([&] { t.ours.setAabb(t.one[0], low + by, high + by, nullptr); }) == 1, t.name, "a step after a move ends one");
    expect(is_frame([&] { t.write(0, 2, 3); }) == 1, t.name, "and one after a filter that is written");
    expect(is_frame([&] { t.add(btVector3(1, 1, 1), btVector3(2, 2, 2), 1, -1); }) == 1, t.name, "and one after a proxy that comes");
    expect(is_frame([&] { t.remove(t.one.size() - 1); }) == 1, t.name, "and one after a proxy that goes");
    expect(is_frame([] {}) == 0, t.name, "and then a step ends none again");
    t.filter_by(nullptr);
}

// The user takes a pair out and puts another one in, so that there are as many as before.
void exchanged(Structure structure) {
    const char* name = "one taken out and one put in";
    BulletBroadphase ours(structure);
    btOverlappingPairCache* cache = ours.getOverlappingPairCache();
    BesideDbvt beside;
    std::vector<btBroadphaseProxy*> proxies;
    for (int k = 0; k < 4; k++) {
        btVector3 low(btScalar(k < 2 ? k : 10 * k), 0, 0);
        proxies.push_back(ours.createProxy(low, low + btVector3(2, 1, 1), 0, nullptr, 1, -1, nullptr));
    }
    for (int step = 0; step < 3; step++) {
        ours.calculateOverlappingPairs(nullptr);
        // The one that was put in stays until it is taken out.
        if (step > 0) cache->removeOverlappingPair(proxies[2], proxies[3], nullptr);
        auto expect_here = [&](bool is_so, const char* what) { expect(is_so, name, what, step); };
        expect(beside.compare(cache, proxies, expect_here) == 1, name, "the pair that meets is there again", step);
        if (step > 0) ours.calculateOverlappingPairs(nullptr);
        cache->removeOverlappingPair(proxies[0], proxies[1], nullptr);
        cache->addOverlappingPair(proxies[2], proxies[3]);
    }
    for (auto* proxy : proxies) ours.destroyProxy(proxy, nullptr);
    expect(cache->getNumOverlappingPairs() == 0, name, "no pair is left without boxes");
}

// Bodies of groups 1, 2, 4 and 8 with many masks fall on a ground in a world of Bullet's. dbvt stands beside, with the same boxes.
void falling(Structure structure) {
    const char* name = "bodies of a user's groups";
    btDefaultCollisionConfiguration configuration;
    btCollisionDispatcher dispatcher{&configuration};
    btSequentialImpulseConstraintSolver solver;
    BulletBroadphase broadphase(structure);
    btDiscreteDynamicsWorld world(&dispatcher, &broadphase, &solver, &configuration);
    btBoxShape ground(btVector3(40, 1, 40)), box(btVector3(0.5f, 0.5f, 0.5f));
    std::vector<std::unique_ptr<btRigidBody>> bodies;
    auto add = [&](btScalar mass, btCollisionShape* shape, const btVector3& at, int group, int mask) {
        btVector3 inertia(0, 0, 0);
        if (mass > 0) shape->calculateLocalInertia(mass, inertia);
        bodies.push_back(std::make_unique<btRigidBody>(mass, nullptr, shape, inertia));
        bodies.back()->setWorldTransform(btTransform(btQuaternion::getIdentity(), at));
        world.addRigidBody(bodies.back().get(), group, mask);
    };
    add(0, &ground, btVector3(0, -1, 0), 8, -1);
    const int masks[] = {-1, 15, 11, 13, 14, 10, 9, 12};
    for (int k = 0; k < 400; k++)
        add(1, &box, btVector3(btScalar(k % 10) * 1.3f, 1 + btScalar(k / 100) * 1.2f, btScalar(k / 10 % 10) * 1.3f), 1 << (k % 4),
            masks[k % 8]);
    // Two of group 2, one on the other.
    add(1, &box, btVector3(-10, 1, 0), 2, -1);
    add(1, &box, btVector3(-10, 3, 0), 2, -1);
    BesideDbvt beside;
    std::vector<btBroadphaseProxy*> proxies;
    for (auto& body : bodies) proxies.push_back(body->getBroadphaseProxy());
    long met = 0;
    for (int step = 0; step < 90; step++) {
        world.stepSimulation(btScalar(1) / 60, 0);
        met += beside.compare(broadphase.getOverlappingPairCache(), proxies,
                              [&](bool is_so, const char* what) { expect(is_so, name, what, step); });
    }
    expect(met > 10000, name, "pairs met");
    btScalar apart = bodies[402]->getWorldTransform().getOrigin().y() - bodies[401]->getWorldTransform().getOrigin().y();
    expect(apart > btScalar(0.9), name, "none comes to lie in another of its group");
    for (auto& body : bodies) world.removeRigidBody(body.get());
}

// What a ghost sees, asked between two steps. Each is done to a world with a ghost at 0 and bodies at 1, at 50 and 51.
struct Ghosts {
    btDefaultCollisionConfiguration configuration;
    btCollisionDispatcher dispatcher{&configuration};
    btGhostPairCallback callback;
    btCollisionWorld world;
    btBoxShape shape{btVector3(1, 1, 1)};
    btCollisionObject bodies[3], late;
    btPairCachingGhostObject ghost;

    explicit Ghosts(btBroadphaseInterface& broadphase) : world(&dispatcher, &broadphase, &configuration) {
        broadphase.getOverlappingPairCache()->setInternalGhostPairCallback(&callback);
        const btScalar places[] = {1, 50, 51};
        for (int k = 0; k < 3; k++) add(bodies[k], places[k]);
        world.computeOverlappingPairs();
        add(ghost, 0);
    }
    ~Ghosts() {
        for (auto* object : {&bodies[0], &bodies[1], &bodies[2], &late, static_cast<btCollisionObject*>(&ghost)})
            if (object->getBroadphaseHandle()) world.removeCollisionObject(object);
    }
    void add(btCollisionObject& object, btScalar at) {
        object.setCollisionShape(&shape);
        object.getWorldTransform().setOrigin(btVector3(at, 0, 0));
        world.addCollisionObject(&object);
    }
    void move(btCollisionObject& object, btScalar at) {
        object.getWorldTransform().setOrigin(btVector3(at, 0, 0));
        world.updateSingleAabb(&object);
    }
    // The bodies that it stands in, a bit each: others may stay until the next step.
    int sees() {
        int found = 0;
        btCollisionObject* all[] = {&bodies[0], &bodies[1], &bodies[2], &late};
        for (int k = 0; k < 4; k++)
            for (int n = 0; n < ghost.getNumOverlappingObjects(); n++)
                if (ghost.getOverlappingObject(n) == all[k] && meet(ghost.getBroadphaseHandle(), all[k]->getBroadphaseHandle()))
                    found |= 1 << k;
        return found;
    }
};
struct GhostCase {
    const char* name;
    int seen;
    void (*before)(Ghosts&);
};
const GhostCase ghost_cases[] = {
    {"a ghost that comes", 1, [](Ghosts&) {}},
    {"a ghost that is moved", 6, [](Ghosts& g) { g.move(g.ghost, 50.5f); }},
    {"a ghost that is moved there and back", 1, [](Ghosts& g) { g.move(g.ghost, 50.5f), g.move(g.ghost, 0); }},
    {"a ghost that stays while a body comes, and is told so", 3, [](Ghosts& g) {
         g.world.updateAabbs();
         g.world.computeOverlappingPairs();
         g.move(g.bodies[1], -1);
         g.move(g.ghost, 0);
     }},
    {"a body that is added where a ghost stands", 9, [](Ghosts& g) {
         g.world.computeOverlappingPairs();
         g.add(g.late, 0.5f);
     }},
    {"a body that is destroyed", 0, [](Ghosts& g) { g.world.removeCollisionObject(&g.bodies[0]); }},
    {"a ghost that is pushed after steps", 4, [](Ghosts& g) {
         for (int k = 0; k < 5; k++) g.world.updateAabbs(), g.world.computeOverlappingPairs();
         g.move(g.ghost, 52.8f);
     }},
};
void see(const GhostCase& c, Structure structure) {
    BulletBroadphase ours(structure);
    btDbvtBroadphase theirs;
    btBroadphaseInterface* both[] = {&ours, &theirs};
    for (btBroadphaseInterface* broadphase : both) {
        Ghosts ghosts(*broadphase);
        c.before(ghosts);
        expect(ghosts.sees() == c.seen, c.name, broadphase == &ours ? "seen at once" : "seen at once over dbvt");
        ghosts.world.updateAabbs();
        ghosts.world.computeOverlappingPairs();
        expect(ghosts.sees() == c.seen, c.name, "and after a step", 1);
        if (broadphase == &theirs) continue;
        int fewest = 0;
        for (int bits = c.seen; bits > 0; bits >>= 1) fewest += bits & 1;
        expect(ghosts.ghost.getNumOverlappingObjects() == fewest, c.name, "and nothing else after a step", 1);
    }
}

void own_caches(Structure structure) {
    btHashedOverlappingPairCache hashed;
    btSortedOverlappingPairCache sorted;
    OddCache odd;
    const std::pair<const char*, btOverlappingPairCache*> caches[] = {
        {"a hashed cache of the user's", &hashed}, {"a sorted cache of the user's", &sorted}, {"a cache with a filter of its own", &odd}};
    for (const auto& [name, cache] : caches) {
        BulletBroadphase::Options options;
        options.cache = cache;
        Twins t(name, structure, options);
        expect(&t.cache() == cache, name, "it is the one in use");
        crowd(t, 100, 9, 4);
        for (int step = 0; step < 30; step++) {
            stir(t, step);
            if (step > 10) t.write(std::size_t(t.below(100)), 1 << t.below(4), t.below(16));
            if (step == 12) t.filter_by(&t.rule);
            if (step == 16) t.filter_by(nullptr);
            if (step > 20) t.drop(std::size_t(t.below(100)));
            t.step(step);
        }
        expect(t.met > 300, name, "pairs met");
    }
}

}  // namespace

int main() {
    for (auto structure : {Structure::plain, Structure::sap, Structure::tree, Structure::grid, Structure::skin}) {
        for (const Case& c : cases) {
            Twins twins(c.name, structure);
            play(c, twins);
        }
        for (const GhostCase& c : ghost_cases) see(c, structure);
        own_caches(structure);
        at_rest(structure);
        exchanged(structure);
        falling(structure);
    }
    std::printf("pairs of Bullet: %d failed\n", failures);
    return failures != 0;
}
