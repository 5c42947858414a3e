// A thousand boxes fall, pile up and come to rest under Bullet, over the library and over Bullet's own btDbvtBroadphase. At each step
// every pair of proxies whose boxes meet must be in the library's cache. Then the way of all boxes is played again for two worlds
// that only collide, one over each, which must have the same contacts, and whose time is told. Rays must hit what testing each object
// hits whose box they meet. btDbvtBroadphase enlarges boxes, and Bullet's test of a ray and a shape finds some that the ray passes
// by, so a few rays have another first hit there: how many is told.
#include "pungwelair_broadphase.hpp"
#include <BulletDynamics/btBulletDynamicsCommon.h>
#include <ctime>
#include <map>
#include <random>

namespace {

constexpr int width = 20, boxes = 1000, steps = 600, steps_to_rays = 10, rays = 50;
using Poses = std::vector<btTransform>;

int failures;

void expect(bool is_so, const char* what, int step) {
    if (!is_so && ++failures <= 20) std::printf("step %d: not so: %s\n", step, what);
}

// The ground and the boxes, as objects that know their number.
struct Shapes {
    btBoxShape ground{btVector3(60, 1, 60)}, box{btVector3(0.5f, 0.5f, 0.5f)};
    btCollisionShape* of(int number) { return number == 0 ? &ground : &box; }
};

Poses opening() {
    Poses poses(1 + boxes, btTransform::getIdentity());
    std::mt19937 random(1);
    auto shift = [&] { return btScalar(random() % 1000) / 2500; };
    poses[0].setOrigin(btVector3(0, -1, 0));
    for (int k = 0; k < boxes; k++) {
        btScalar x = btScalar(k % width) * 1.5f, y = 1 + btScalar(k / (width * width)) * 1.5f, z = btScalar(k / width % width) * 1.5f;
        x += shift(), z += shift();
        poses[std::size_t(k) + 1].setOrigin(btVector3(x, y, z));
    }
    return poses;
}

struct Falling {
    btDefaultCollisionConfiguration configuration;
    btCollisionDispatcher dispatcher{&configuration};
    btSequentialImpulseConstraintSolver solver;
    btDiscreteDynamicsWorld world;
    std::vector<std::unique_ptr<btRigidBody>> bodies;

    Falling(btBroadphaseInterface& broadphase, Shapes& shapes) : world(&dispatcher, &broadphase, &solver, &configuration) {
        Poses poses = opening();
        for (int number = 0; number <= boxes; number++) {
            btVector3 inertia(0, 0, 0);
            btScalar mass = number == 0 ? 0 : 1;
            if (mass > 0) shapes.box.calculateLocalInertia(mass, inertia);
            bodies.push_back(std::make_unique<btRigidBody>(mass, nullptr, shapes.of(number), inertia));
            bodies.back()->setWorldTransform(poses[std::size_t(number)]);
            bodies.back()->setDamping(0.05f, 0.1f);
            bodies.back()->setUserIndex(number);
            world.addRigidBody(bodies.back().get());
        }
    }
    ~Falling() {
        for (auto& body : bodies) world.removeRigidBody(body.get());
    }
    int asleep() {
        return int(std::count_if(bodies.begin() + 1, bodies.end(), [](auto& body) { return !body->isActive(); }));
    }
    Poses poses() {
        Poses all;
        for (auto& body : bodies) all.push_back(body->getWorldTransform());
        return all;
    }
};

bool meet(const btBroadphaseProxy* a, const btBroadphaseProxy* b) {
    return TestAabbAgainstAabb2(a->m_aabbMin, a->m_aabbMax, b->m_aabbMin, b->m_aabbMax);
}

// Every pair that Bullet's filter allows and whose boxes meet is in the cache, found by testing all.
int pairs_that_meet(Falling& falling, int step) {
    auto* cache = falling.world.getBroadphase()->getOverlappingPairCache();
    int met = 0;
    for (std::size_t a = 0; a < falling.bodies.size(); a++)
        for (std::size_t b = a + 1; b < falling.bodies.size(); b++) {
            auto *one = falling.bodies[a]->getBroadphaseProxy(), *other = falling.bodies[b]->getBroadphaseProxy();
            if (!meet(one, other) || !cache->needsBroadphaseCollision(one, other)) continue;
            met++;
            expect(cache->findPair(one, other) != nullptr, "a pair whose boxes meet is in the cache", step);
        }
    return met;
}

// Whether a segment meets the box of a proxy, by its times of entry and exit.
bool meets_box(const btVector3& from, const btVector3& to, const btBroadphaseProxy* proxy) {
    double enter = 0, leave = 1;
    for (int axis = 0; axis < 3; axis++) {
        double start = from[axis], way = to[axis] - start, low = proxy->m_aabbMin[axis] - start, high = proxy->m_aabbMax[axis] - start;
        if (way == 0 && (low > 0 || high < 0)) return false;
        if (way == 0) continue;
        enter = std::max(enter, std::min(low / way, high / way));
        leave = std::min(leave, std::max(low / way, high / way));
    }
    return enter <= leave;
}

// A world that only collides, with the processor time that its broad phase took.
struct Colliding {
    btDefaultCollisionConfiguration configuration;
    btCollisionDispatcher dispatcher{&configuration};
    btCollisionWorld world;
    std::vector<std::unique_ptr<btCollisionObject>> objects;
    std::clock_t taken = 0;

    Colliding(btBroadphaseInterface& broadphase, Shapes& shapes) : world(&dispatcher, &broadphase, &configuration) {
        Poses poses = opening();
        for (int number = 0; number <= boxes; number++) {
            objects.push_back(std::make_unique<btCollisionObject>());
            objects.back()->setCollisionShape(shapes.of(number));
            objects.back()->setWorldTransform(poses[std::size_t(number)]);
            objects.back()->setUserIndex(number);
            add(number);
        }
    }
    ~Colliding() {
        for (auto& object : objects) world.removeCollisionObject(object.get());
    }
    void add(int number) {
        int group = number == 0 ? btBroadphaseProxy::StaticFilter : btBroadphaseProxy::DefaultFilter;
        world.addCollisionObject(objects[std::size_t(number)].get(), group, number == 0 ? ~group : int(btBroadphaseProxy::AllFilter));
    }
    // Takes some objects out, and brings them back in another order, under other proxies.
    void renew() {
        for (int number = 0; number <= boxes; number += 7) world.removeCollisionObject(objects[std::size_t(number)].get());
        for (int number = boxes - boxes % 7; number >= 0; number -= 7) add(number);
    }
    void step(const Poses& poses) {
        for (std::size_t k = 0; k < objects.size(); k++) objects[k]->setWorldTransform(poses[k]);
        std::clock_t start = std::clock();
        world.updateAabbs();
        world.computeOverlappingPairs();
        taken += std::clock() - start;
        dispatcher.dispatchAllCollisionPairs(world.getPairCache(), world.getDispatchInfo(), &dispatcher);
    }
    double milliseconds() const { return double(taken) * 1000 / CLOCKS_PER_SEC / steps; }
    // How many contacts each pair of objects has.
    std::map<std::pair<int, int>, int> contacts() {
        std::map<std::pair<int, int>, int> found;
        for (int k = 0; k < dispatcher.getNumManifolds(); k++) {
            auto* manifold = dispatcher.getManifoldByIndexInternal(k);
            int a = manifold->getBody0()->getUserIndex(), b = manifold->getBody1()->getUserIndex();
            if (manifold->getNumContacts() > 0) found[std::minmax(a, b)] = manifold->getNumContacts();
        }
        return found;
    }
    // How far along a ray its first hit is, of its length: by the broad phase, or by testing every object whose box it meets.
    btScalar first_hit(const btVector3& from, const btVector3& to) {
        btCollisionWorld::ClosestRayResultCallback hit(from, to);
        world.rayTest(from, to, hit);
        return hit.m_closestHitFraction;
    }
    btScalar first_hit_of_all(const btVector3& from, const btVector3& to) {
        btCollisionWorld::ClosestRayResultCallback hit(from, to);
        btTransform start(btQuaternion::getIdentity(), from), end(btQuaternion::getIdentity(), to);
        for (auto& object : objects)
            if (meets_box(from, to, object->getBroadphaseHandle()))
                btCollisionWorld::rayTestSingle(start, end, object.get(), object->getCollisionShape(), object->getWorldTransform(), hit);
        return hit.m_closestHitFraction;
    }
};

struct Rays {
    long hits = 0, others = 0;

    void compare(Colliding& ours, Colliding& theirs, int step) {
        std::mt19937 random(unsigned(step) + 1);
        auto place = [&](btScalar height) { return btVector3(btScalar(random() % 4000) / 100, height, btScalar(random() % 4000) / 100); };
        for (int k = 0; k < rays; k++) {
            btVector3 from = place(btScalar(random() % 2000) / 100), to = place(btScalar(random() % 400) / 100 - 2);
            // One in ten comes from far out of the library's range.
            if (k % 10 == 0) from.setY(100000);
            btScalar hit = ours.first_hit(from, to);
            expect(hit <= ours.first_hit_of_all(from, to), "no hit of a ray is lost", step);
            hits += hit < 1;
            others += hit != theirs.first_hit(from, to);
        }
    }
};

}  // namespace

int main() {
    Shapes shapes;
    std::vector<Poses> way;
    {
        pungwelair::BulletBroadphase broadphase;
        Falling falling(broadphase, shapes);
        long met = 0;
        for (int step = 0; step < steps; step++) {
            falling.world.stepSimulation(btScalar(1) / 60, 0);
            met += pairs_that_meet(falling, step);
            way.push_back(falling.poses());
        }
        std::printf("over the library: %d of %d boxes asleep, %ld pairs met in all\n", falling.asleep(), boxes, met);
        expect(falling.asleep() > boxes / 2, "most boxes came to rest", steps);
    }
    {
        btDbvtBroadphase broadphase;
        Falling falling(broadphase, shapes);
        for (int step = 0; step < steps; step++) falling.world.stepSimulation(btScalar(1) / 60, 0);
        std::printf("over btDbvtBroadphase: %d of %d boxes asleep\n", falling.asleep(), boxes);
    }
    const std::pair<pungwelair::Structure, const char*> named[] = {
        {pungwelair::Structure::tree, "tree"}, {pungwelair::Structure::grid, "grid"}, {pungwelair::Structure::skin, "skin"}};
    for (auto [structure, name] : named) {
        pungwelair::BulletBroadphase broadphase(structure);
        btDbvtBroadphase dbvt;
        Colliding ours(broadphase, shapes), theirs(dbvt, shapes);
        long contacts = 0;
        Rays compared;
        for (int step = 0; step < steps; step++) {
            if (step == steps / 2) ours.renew(), theirs.renew();
            ours.step(way[std::size_t(step)]);
            theirs.step(way[std::size_t(step)]);
            auto found = ours.contacts();
            expect(found == theirs.contacts(), "the same contacts", step);
            contacts += long(found.size());
            if (step % steps_to_rays == 0) compared.compare(ours, theirs, step);
        }
        std::printf("%s: %ld pairs in contact, %ld of %d rays hit, %ld with another first hit\n", name, contacts, compared.hits,
                    rays * steps / steps_to_rays, compared.others);
        std::printf("%s: %.3f ms a step for boxes and pairs, and %.3f ms over btDbvtBroadphase\n", name, ours.milliseconds(),
                    theirs.milliseconds());
    }
    std::printf("pile: %d failed\n", failures);
    return failures != 0;
}
