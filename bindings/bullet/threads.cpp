// Rays and regions of four threads at once under Bullet, each answered as one thread alone is, and a world for several threads
// (btDiscreteDynamicsWorldMt, whose predictive contacts are sweeps). It is built with the sanitizer for threads, if the compiler has one.
// Bullet as Debian builds it makes such a world work on one thread, so the first test makes its threads itself.
#include "../tests/beside_dbvt.hpp"
#include "pungwelair_broadphase.hpp"
#include <BulletCollision/CollisionDispatch/btCollisionDispatcherMt.h>
#include <BulletDynamics/ConstraintSolver/btSequentialImpulseConstraintSolverMt.h>
#include <BulletDynamics/Dynamics/btDiscreteDynamicsWorldMt.h>
#include <BulletDynamics/btBulletDynamicsCommon.h>
#include <LinearMath/btThreads.h>
#include <cstdio>
#include <random>
#include <thread>

namespace {

using pungwelair::BulletBroadphase;
using pungwelair::Structure;

constexpr int boxes = 300, questions = 60, threads = 4;
int failures;

void expect(bool is_so, const char* what, int number) {
    if (!is_so && ++failures <= 20) std::printf("%d: not so: %s\n", number, what);
}

// What it was called for, in order. Every second callback asks in turn.
struct Found : btBroadphaseRayCallback {
    BulletBroadphase* within = nullptr;
    bool is_short = false;
    std::vector<int> ids;
    bool process(const btBroadphaseProxy* proxy) override {
        ids.push_back(proxy->m_uniqueId);
        if (is_short) m_lambda_max *= btScalar(0.75);
        if (!within) return true;
        Found inner;
        within->aabbTest(proxy->m_aabbMin, proxy->m_aabbMax, inner);
        ids.push_back(-int(inner.ids.size()));
        return true;
    }
};

// Three questions: a region, a ray, and a ray with a box that its callback shortens.
std::vector<int> ask(BulletBroadphase& broadphase, int number) {
    std::mt19937 random(unsigned(number) + 1);
    auto place = [&](unsigned room) { return btVector3(btScalar(random() % room), btScalar(random() % room), btScalar(random() % room)); };
    std::vector<int> answers;
    for (int kind = 0; kind < 3; kind++) {
        Found found;
        btVector3 from = place(60), to = place(60) + btVector3(1, 1, 1), half = place(3) * btScalar(kind == 2);
        if (number % 2 == 0) found.within = &broadphase;
        found.is_short = kind == 2;
        btVector3 way = (to - from).normalized();
        for (int axis = 0; axis < 3; axis++) {
            found.m_rayDirectionInverse[axis] = way[axis] == 0 ? btScalar(BT_LARGE_FLOAT) : 1 / way[axis];
            found.m_signs[axis] = found.m_rayDirectionInverse[axis] < 0;
        }
        found.m_lambda_max = way.dot(to - from);
        if (kind == 0) broadphase.aabbTest(from, from + btVector3(9, 9, 9), found);
        else broadphase.rayTest(from, to, found, -half, half);
        answers.push_back(int(found.ids.size()));
        answers.insert(answers.end(), found.ids.begin(), found.ids.end());
    }
    return answers;
}

// The first question of all hands on the moves that wait, and the first ray that a callback shortens changes how later ones are asked.
void several_threads(Structure structure) {
    BulletBroadphase::Options options;
    options.has_collision_objects = false;
    BulletBroadphase broadphase(structure, options);
    std::mt19937 random(3);
    auto part = [&](unsigned room) { return btScalar(random() % (room * 64)) / 64; };
    std::vector<btBroadphaseProxy*> proxies;
    for (int k = 0; k < boxes; k++) {
        btVector3 low(part(60), part(60), part(60));
        proxies.push_back(broadphase.createProxy(low, low + btVector3(part(6), part(6), part(6)), 0, nullptr, 1, -1, nullptr));
    }
    std::vector<std::vector<int>> wanted, all(threads * questions);
    for (int number = 0; number < questions; number++) wanted.push_back(ask(broadphase, number));
    // There and back, so that moves wait.
    for (auto* proxy : proxies) {
        btVector3 low = proxy->m_aabbMin, high = proxy->m_aabbMax, by(1, 0, 0);
        broadphase.setAabb(proxy, low + by, high + by, nullptr);
        broadphase.setAabb(proxy, low, high, nullptr);
    }
    std::vector<std::thread> askers;
    for (int thread = 0; thread < threads; thread++)
        askers.emplace_back([&, thread] {
            for (int k = 0; k < questions; k++) {
                int number = (k + thread * 13) % questions;
                all[std::size_t(thread * questions + number)] = ask(broadphase, number);
            }
        });
    for (auto& asker : askers) asker.join();
    broadphase.calculateOverlappingPairs(nullptr);
    BesideDbvt().compare(broadphase.getOverlappingPairCache(), proxies, [&](bool is_so, const char* what) { expect(is_so, what, 0); });
    for (int k = 0; k < threads * questions; k++)
        expect(all[std::size_t(k)] == wanted[std::size_t(k % questions)], "each thread is answered as one alone", k);
    for (auto* proxy : proxies) broadphase.destroyProxy(proxy, nullptr);
}

// Fast bodies of a world for several threads fall on a thin ground, and none comes through it.
void world_for_threads(Structure structure) {
    btDefaultCollisionConfiguration configuration;
    btCollisionDispatcherMt dispatcher(&configuration);
    BulletBroadphase broadphase(structure);
    btConstraintSolverPoolMt solvers(2);
    btSequentialImpulseConstraintSolverMt solver;
    btDiscreteDynamicsWorldMt world(&dispatcher, &broadphase, &solvers, &solver, &configuration);
    btBoxShape ground(btVector3(40, 0.05f, 40));
    btSphereShape ball(btScalar(0.3));
    std::vector<std::unique_ptr<btRigidBody>> bodies;
    auto add = [&](btScalar mass, btCollisionShape* shape, const btVector3& at) {
        btVector3 inertia(0, 0, 0);
        if (mass > 0) shape->calculateLocalInertia(mass, inertia);
        bodies.push_back(std::make_unique<btRigidBody>(mass, nullptr, shape, inertia));
        bodies.back()->setWorldTransform(btTransform(btQuaternion::getIdentity(), at));
        world.addRigidBody(bodies.back().get());
    };
    add(0, &ground, btVector3(0, 0, 0));
    for (int k = 0; k < 60; k++) {
        add(1, &ball, btVector3(btScalar(k % 10) * 2 - 9, 20 + btScalar(k / 10) * 3, btScalar(k % 7) * 2 - 6));
        bodies.back()->setLinearVelocity(btVector3(0, -300, 0));
        bodies.back()->setCcdMotionThreshold(btScalar(0.1));
        bodies.back()->setCcdSweptSphereRadius(btScalar(0.25));
    }
    BesideDbvt beside;
    std::vector<btBroadphaseProxy*> proxies;
    for (auto& body : bodies) proxies.push_back(body->getBroadphaseProxy());
    int met = 0;
    for (int step = 0; step < 60; step++) {
        world.stepSimulation(btScalar(1) / 60, 0, btScalar(1) / 60);
        met += beside.compare(broadphase.getOverlappingPairCache(), proxies,
                              [&](bool is_so, const char* what) { expect(is_so, what, step); });
    }
    expect(met > 300, "bodies of a world for threads meet", met);
    for (std::size_t k = 1; k < bodies.size(); k++)
        expect(bodies[k]->getWorldTransform().getOrigin().y() > btScalar(-0.5), "no fast body comes through the ground", int(k));
    for (auto& body : bodies) world.removeRigidBody(body.get());
}

}  // namespace

int main() {
    btSetTaskScheduler(btGetSequentialTaskScheduler());
    for (auto structure : {Structure::plain, Structure::sap, Structure::tree, Structure::grid, Structure::skin}) {
        several_threads(structure);
        world_for_threads(structure);
    }
    std::printf("threads of Bullet: %d failed\n", failures);
    return failures != 0;
}
