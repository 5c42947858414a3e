// Times what the broad phase of a step of Bullet's btDiscreteDynamicsWorld takes, over the library and over btDbvtBroadphase: setAabb for
// each body, as Bullet calls it whether or not the body moved, and calculateOverlappingPairs. A simulation runs once over dbvt, and what it told
// its broad phase is then told to each again, in the same order, so that no two of them part. After each step all must have the same
// pairs of boxes that meet; that comparison isn't timed.
//
//     bindings/out/steps                  500, 2,000 and 8,000 bodies, the least of 5 rounds in turn
//     bindings/out/steps 2000 9           bodies and rounds
//     bindings/out/steps check            a few bodies, and nothing is timed: the pairs must be those that testing all boxes finds
//
// It prints the microseconds of processor time that a step takes over dbvt, and what it takes over the library as a ratio to them: below 1
// the library is faster. `move` tells how many boxes a step changes, and `meet` how many pairs there are, by the mean.
#include "pungwelair_broadphase.hpp"
#include <btBulletDynamicsCommon.h>
#include <cstdint>
#include <cstdio>
#include <cstdlib>
#include <cstring>
#include <ctime>
#include <random>

namespace {

// Steps of a row. In the first ones a broad phase comes to know its boxes, which is no step of a world that runs.
constexpr int untimed = 5, timed = 60;
constexpr btScalar tick = btScalar(1) / 60;

struct Told {
    int number;
    btVector3 low, high;
};
using Step = std::vector<Told>;

int number_of(const btBroadphaseProxy* proxy) { return static_cast<btCollisionObject*>(proxy->m_clientObject)->getUserIndex(); }

struct Recorder final : btDbvtBroadphase {
    Step* into = nullptr;
    void setAabb(btBroadphaseProxy* proxy, const btVector3& low, const btVector3& high, btDispatcher* dispatcher) override {
        if (into) into->push_back({number_of(proxy), low, high});
        btDbvtBroadphase::setAabb(proxy, low, high, dispatcher);
    }
};

struct Simulation {
    btDefaultCollisionConfiguration configuration;
    btCollisionDispatcher dispatcher{&configuration};
    Recorder broadphase;
    btSequentialImpulseConstraintSolver solver;
    btDiscreteDynamicsWorld world{&dispatcher, &broadphase, &solver, &configuration};
    btBoxShape ground{btVector3(400, 1, 400)}, crate{btVector3(0.5f, 0.5f, 0.5f)};
    btBoxShape tile{btVector3(2, 0.5f, 2)}, post{btVector3(0.3f, 1, 0.3f)};
    btSphereShape ball{0.5f};
    std::vector<std::unique_ptr<btRigidBody>> bodies;
    std::mt19937 random{3};

    ~Simulation() {
        for (auto& body : bodies) world.removeRigidBody(body.get());
    }
    btScalar part(btScalar most) { return most * btScalar(random() % 10000) / 10000; }
    btVector3 anyway(btScalar most) { return btVector3(part(2 * most) - most, part(2 * most) - most, part(2 * most) - most); }
    btRigidBody* add(btScalar mass, btCollisionShape& shape, const btVector3& at) {
        btVector3 inertia(0, 0, 0);
        if (mass > 0) shape.calculateLocalInertia(mass, inertia);
        bodies.push_back(std::make_unique<btRigidBody>(mass, nullptr, &shape, inertia));
        bodies.back()->setWorldTransform(btTransform(btQuaternion::getIdentity(), at));
        bodies.back()->setUserIndex(int(bodies.size()) - 1);
        // Else Bullet sends bodies to sleep when it will, and a row has some of them.
        if (mass > 0) bodies.back()->setActivationState(DISABLE_DEACTIVATION);
        world.addRigidBody(bodies.back().get());
        return bodies.back().get();
    }
    void step() { world.stepSimulation(tick, 0); }
    void run(int steps) {
        for (int k = 0; k < steps; k++) step();
    }
};

// How a world's broad phase stood, and what it was told since.
struct Record {
    std::vector<btBroadphaseProxy> first;
    std::vector<Step> steps;
    std::size_t moves = 0;
};

template <class Each>
Record record(Simulation& s, Each&& before) {
    Record record;
    for (auto& body : s.bodies) record.first.push_back(*body->getBroadphaseProxy());
    for (int k = 0; k < untimed + timed; k++) {
        record.steps.emplace_back();
        std::vector<btBroadphaseProxy> was;
        for (auto& body : s.bodies) was.push_back(*body->getBroadphaseProxy());
        before(k);
        s.broadphase.into = &record.steps.back();
        s.step();
        s.broadphase.into = nullptr;
        for (const Told& told : record.steps.back()) {
            const btBroadphaseProxy& one = was[std::size_t(told.number)];
            if (k >= untimed) record.moves += !(one.m_aabbMin == told.low && one.m_aabbMax == told.high);
        }
    }
    return record;
}

uint64_t nanoseconds() {
    timespec now;
    clock_gettime(CLOCK_THREAD_CPUTIME_ID, &now);
    return uint64_t(now.tv_sec) * 1000000000u + uint64_t(now.tv_nsec);
}

bool meet(const btBroadphaseProxy* a, const btBroadphaseProxy* b) {
    return TestAabbAgainstAabb2(a->m_aabbMin, a->m_aabbMax, b->m_aabbMin, b->m_aabbMax);
}

// The pairs of all timed steps: how many, and a sum that is the same in whatever order they come.
struct Pairs {
    std::size_t count = 0;
    uint64_t sum = 0;
    bool operator!=(const Pairs& other) const { return count != other.count || sum != other.sum; }
    void add(int step, const btBroadphaseProxy* a, const btBroadphaseProxy* b) {
        int one = number_of(a), other = number_of(b);
        uint64_t key = (uint64_t(step) << 26 | uint64_t(std::min(one, other)) << 13 | uint64_t(std::max(one, other))) * 0x9e3779b97f4a7c15u;
        count++;
        sum += key ^ key >> 32;
    }
};

struct Played {
    uint64_t nanoseconds = 0;
    Pairs pairs;
};

// Plays a record to a broad phase. If `all` is given, the pairs that testing all boxes finds come in there.
Played play(btBroadphaseInterface& broadphase, const Record& record, Pairs* all) {
    Played played;
    std::vector<btBroadphaseProxy*> proxies;
    for (const auto& one : record.first)
        proxies.push_back(broadphase.createProxy(one.m_aabbMin, one.m_aabbMax, 0, one.m_clientObject, one.m_collisionFilterGroup,
                                                 one.m_collisionFilterMask, nullptr));
    broadphase.calculateOverlappingPairs(nullptr);
    btOverlappingPairCache* cache = broadphase.getOverlappingPairCache();
    for (int k = 0; k < untimed + timed; k++) {
        uint64_t begun = nanoseconds();
        for (const Told& told : record.steps[std::size_t(k)])
            broadphase.setAabb(proxies[std::size_t(told.number)], told.low, told.high, nullptr);
        broadphase.calculateOverlappingPairs(nullptr);
        if (k < untimed) continue;
        played.nanoseconds += nanoseconds() - begun;
        const btBroadphasePairArray& pairs = cache->getOverlappingPairArray();
        for (int p = 0; p < pairs.size(); p++)
            if (meet(pairs[p].m_pProxy0, pairs[p].m_pProxy1)) played.pairs.add(k, pairs[p].m_pProxy0, pairs[p].m_pProxy1);
        for (std::size_t a = 0; all && a < proxies.size(); a++)
            for (std::size_t b = 0; b < a; b++) {
                bool may_pair = meet(proxies[a], proxies[b]) && cache->needsBroadphaseCollision(proxies[a], proxies[b]);
                if (may_pair) all->add(k, proxies[a], proxies[b]);
            }
    }
    for (btBroadphaseProxy* proxy : proxies) broadphase.destroyProxy(proxy, nullptr);
    return played;
}

template <pungwelair::Structure structure>
std::unique_ptr<btBroadphaseInterface> ours() {
    return std::make_unique<pungwelair::BulletBroadphase>(structure);
}

struct Named {
    const char* name;
    std::unique_ptr<btBroadphaseInterface> (*make)();
};
const Named broadphases[] = {
    {"btDbvtBroadphase", [] { return std::unique_ptr<btBroadphaseInterface>(new btDbvtBroadphase); }},
    {"skin", ours<pungwelair::Structure::skin>},
    {"tree", ours<pungwelair::Structure::tree>},
    {"grid", ours<pungwelair::Structure::grid>},
};

// Plays and prints the rows.
struct Table {
    int bodies, rounds;
    bool is_check;
    int failures = 0;

    void row(const char* name, const Record& record) {
        constexpr std::size_t number = std::size(broadphases);
        uint64_t least[number];
        std::fill(least, least + number, UINT64_MAX);
        Pairs expected, all;
        for (int round = 0; round < rounds; round++)
            for (std::size_t k = 0; k < number; k++) {
                bool is_first = round == 0 && k == 0;
                auto broadphase = broadphases[k].make();
                Played played = play(*broadphase, record, is_check && is_first ? &all : nullptr);
                least[k] = std::min(least[k], played.nanoseconds);
                if (is_first) expected = is_check ? all : played.pairs;
                if (played.pairs != expected) failures++, std::printf("%s, %s: other pairs\n", name, broadphases[k].name);
            }
        if (is_check) return;
        std::printf("| %s | %d | %.0f | %.0f | %.1f |", name, bodies, double(record.moves) / timed, double(expected.count) / timed,
                    double(least[0]) / timed / 1000);
        for (std::size_t k = 1; k < number; k++) std::printf(" %.2f |", double(least[k]) / double(least[0]));
        std::printf("\n");
        std::fflush(stdout);
    }

    // Crates that fall, come to lie in a heap, are all asleep, and are stirred one in twenty.
    void heap() {
        Simulation s;
        s.add(0, s.ground, btVector3(0, -1, 0));
        int side = std::max(4, int(std::cbrt(bodies) * 1.2));
        for (int k = 1; k < bodies; k++) {
            btVector3 at(btScalar(k % side) * 1.6f, 12 + btScalar(k / (side * side)) * 1.6f, btScalar(k / side % side) * 1.6f);
            s.add(1, s.crate, at)->setLinearVelocity(s.anyway(2));
        }
        s.run(10);
        row("falling", record(s, [](int) {}));
        s.run(300);
        row("awake in a heap", record(s, [](int) {}));
        for (std::size_t k = 1; k < s.bodies.size(); k++) still(*s.bodies[k], ISLAND_SLEEPING);
        s.run(2);
        row("at rest", record(s, [](int) {}));
        row("5% stirred", record(s, [&](int step) {
                for (std::size_t k = 1; k < s.bodies.size(); k++) {
                    // A sleeper would wake by its neighbour, so the others are taken out of the simulation.
                    if (int(k) % 20 != step / 15) {
                        still(*s.bodies[k], DISABLE_SIMULATION);
                    } else if (step % 15 == 0) {
                        s.bodies[k]->forceActivationState(DISABLE_DEACTIVATION);
                        s.bodies[k]->setLinearVelocity(s.anyway(2));
                    }
                }
            }));
    }
    static void still(btRigidBody& body, int state) {
        body.forceActivationState(state);
        body.setLinearVelocity(btVector3(0, 0, 0));
        body.setAngularVelocity(btVector3(0, 0, 0));
    }

    // Tiles and posts that stand, and balls that roll among them.
    void level() {
        Simulation s;
        int balls = bodies / 10, posts = bodies / 5, tiles = bodies - balls - posts, side = std::max(1, int(std::sqrt(tiles)));
        auto tile = [&](int k) { return btVector3(btScalar(k % side) * 4, -0.5f, btScalar(k / side) * 4); };
        auto on_any = [&] { return tile(int(s.random() % unsigned(tiles))) + btVector3(s.part(3) - 1.5f, 0, s.part(3) - 1.5f); };
        for (int k = 0; k < tiles; k++) s.add(0, s.tile, tile(k));
        for (int k = 0; k < posts; k++) s.add(0, s.post, on_any() + btVector3(0, 1.5f, 0));
        for (int k = 0; k < balls; k++) {
            btRigidBody* ball = s.add(1, s.ball, on_any() + btVector3(0, 1, 0));
            ball->setLinearVelocity(btVector3(s.part(8) - 4, 0, s.part(8) - 4));
            ball->setRestitution(0.5f);
        }
        s.run(30);
        row("a level, 10% move", record(s, [](int) {}));
    }

    void rows() {
        heap();
        level();
    }
};

}  // namespace

int main(int argc, char** argv) {
    bool is_check = argc == 2 && !std::strcmp(argv[1], "check");
    int bodies = argc == 3 ? std::atoi(argv[1]) : 0, rounds = argc == 3 ? std::atoi(argv[2]) : 5;
    if (argc > 3 || (argc == 2 && !is_check) || (argc == 3 && (bodies < 20 || bodies > 8000 || rounds < 1)))
        return std::fprintf(stderr, "usage: steps, steps BODIES ROUNDS of 20 to 8000 bodies, or steps check\n"), 2;
    int failures = 0;
    std::vector<int> sizes{500, 2000, 8000};
    if (is_check) sizes = {120};
    if (bodies > 0) sizes = {bodies};
    if (!is_check) {
        std::printf("Microseconds a step of the broad phase over dbvt, and ratios to them, the least of %d rounds of %d steps\n\n", rounds,
                    timed);
        std::printf("| Step | bodies | move | meet | dbvt, us |");
        for (std::size_t k = 1; k < std::size(broadphases); k++) std::printf(" %s : dbvt |", broadphases[k].name);
        std::printf("\n|---|---|---|---|---|---|---|---|\n");
    }
    for (int size : sizes) {
        Table table{size, is_check ? 1 : rounds, is_check};
        table.rows();
        failures += table.failures;
    }
    if (is_check) std::printf("steps: %d failed\n", failures);
    return failures != 0;
}
