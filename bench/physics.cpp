// Writes the boxes of bodies that Bullet simulates, as a scene: how an engine's boxes move, while made loads make them jump.
//
//     physics KIND BODIES STEPS > SCENE      KIND is tower, hopper, chains, train or rest
//
// Each body is added with its box, rounded outward to 1/65,536. After some steps in which the bodies come into their way, each further one is
// a frame: a `move` for each box that changed, and `frame`. So the scene is played by the program, and by `bench/in_process FILE`.
#include <algorithm>
#include <btBulletDynamicsCommon.h>
#include <cmath>
#include <cstdint>
#include <cstdio>
#include <cstdlib>
#include <cstring>
#include <memory>
#include <random>
#include <vector>

namespace {

constexpr btScalar tick = btScalar(1) / 60;

struct Box {
    int64_t at[6];
    bool operator!=(const Box &other) const { return std::memcmp(at, other.at, sizeof at) != 0; }
};

struct World {
    btDefaultCollisionConfiguration configuration;
    btCollisionDispatcher dispatcher{&configuration};
    btDbvtBroadphase broadphase;
    btSequentialImpulseConstraintSolver solver;
    btDiscreteDynamicsWorld world{&dispatcher, &broadphase, &solver, &configuration};
    std::vector<std::unique_ptr<btCollisionShape>> shapes;
    std::vector<std::unique_ptr<btRigidBody>> bodies;
    std::vector<std::unique_ptr<btTypedConstraint>> joints;
    std::mt19937 random{7};

    ~World() {
        for (auto &joint : joints) world.removeConstraint(joint.get());
        for (auto &body : bodies) world.removeRigidBody(body.get());
    }
    btScalar part(btScalar most) { return most * btScalar(random() % 10000) / 10000; }
    btCollisionShape *shape(btCollisionShape *made) {
        shapes.emplace_back(made);
        return made;
    }
    btRigidBody *add(btScalar mass, btCollisionShape *shape, const btVector3 &at, const btQuaternion &turn = btQuaternion::getIdentity()) {
        btVector3 inertia(0, 0, 0);
        if (mass > 0) shape->calculateLocalInertia(mass, inertia);
        bodies.push_back(std::make_unique<btRigidBody>(mass, nullptr, shape, inertia));
        bodies.back()->setWorldTransform(btTransform(turn, at));
        world.addRigidBody(bodies.back().get());
        return bodies.back().get();
    }
    void ground(btScalar half) { add(0, shape(new btBoxShape(btVector3(half, 1, half))), btVector3(0, -1, 0)); }
    void join(btTypedConstraint *joint) {
        joints.emplace_back(joint);
        world.addConstraint(joint, true);
    }
    Box box(std::size_t k) const {
        btVector3 low, high;
        bodies[k]->getAabb(low, high);
        Box box{};
        for (int axis = 0; axis < 3; axis++) {
            box.at[axis] = int64_t(std::floor(double(low[axis]) * 65536));
            box.at[3 + axis] = int64_t(std::ceil(double(high[axis]) * 65536));
        }
        return box;
    }
};

// Towers of bricks on a floor. Balls hit them later.
int tower(World &w, int count) {
    auto *brick = w.shape(new btBoxShape(btVector3(0.5f, 0.25f, 0.25f))), *ball = w.shape(new btSphereShape(0.6f));
    w.ground(200);
    int balls = std::max(4, count / 100), bricks = count - balls, towers = std::max(1, bricks / 240), side = int(std::ceil(std::sqrt(towers)));
    for (int k = 0; k < bricks; k++) {
        int which = k % towers, number = k / towers, floor = number / 8, place = number % 8;
        btVector3 foot(btScalar(which % side) * 8, 0, btScalar(which / side) * 8);
        bool turned = floor % 2 == 1;
        btVector3 at(btScalar(place % 2) * 1.05f, 0.25f + btScalar(floor) * 0.5f, btScalar(place / 2) * 0.55f);
        if (turned) at = btVector3(btScalar(place / 2) * 0.55f - 0.25f, at.y(), btScalar(place % 2) * 1.05f + 0.3f);
        w.add(1, brick, foot + at, turned ? btQuaternion(btVector3(0, 1, 0), SIMD_HALF_PI) : btQuaternion::getIdentity());
    }
    for (int k = 0; k < balls; k++) {
        auto *body = w.add(4, ball, btVector3(-20 - w.part(30), 2 + w.part(8), w.part(btScalar(side) * 8)));
        body->setLinearVelocity(btVector3(18 + w.part(10), 3, 0));
    }
    return 90;
}

// Marbles that run through a hopper and heap up below.
int hopper(World &w, int count) {
    w.ground(100);
    auto *marble = w.shape(new btSphereShape(0.25f)), *wall = w.shape(new btBoxShape(btVector3(6, 0.2f, 6)));
    for (int k = 0; k < 4; k++) {
        btQuaternion about(btVector3(0, 1, 0), SIMD_HALF_PI * btScalar(k)), lean(btVector3(0, 0, 1), btScalar(0.7));
        w.add(0, wall, quatRotate(about, btVector3(5.2f, 9, 0)), about * lean);
    }
    int side = 14;
    for (int k = 0; k < count; k++)
        w.add(0.2f, marble, btVector3(btScalar(k % side) * 0.55f - 3.6f + w.part(0.1f), 10 + btScalar(k / (side * side)) * 0.55f, btScalar(k / side % side) * 0.55f - 3.6f + w.part(0.1f)));
    return 240;
}

// Chains that hang side by side and swing.
int chains(World &w, int count) {
    auto *link = w.shape(new btCapsuleShape(0.1f, 0.4f)), *hook = w.shape(new btBoxShape(btVector3(0.2f, 0.2f, 0.2f)));
    int length = 20, number = std::max(1, count / (length + 1)), side = int(std::ceil(std::sqrt(number)));
    for (int k = 0; k < number; k++) {
        btVector3 top(btScalar(k % side) * 0.9f, 14, btScalar(k / side) * 0.9f);
        btRigidBody *above = w.add(0, hook, top);
        btVector3 below(0, -0.2f, 0);
        for (int n = 0; n < length; n++) {
            auto *body = w.add(0.5f, link, top - btVector3(0, 0.5f + btScalar(n) * 0.62f, 0));
            w.join(new btPoint2PointConstraint(*above, *body, below, btVector3(0, 0.31f, 0)));
            body->setLinearVelocity(btVector3(btScalar(n) * w.part(0.4f), 0, w.part(1)));
            body->setActivationState(DISABLE_DEACTIVATION);
            above = body;
            below = btVector3(0, -0.31f, 0);
        }
    }
    return 60;
}

// Trains of cars that are drawn over a rough ground, past posts that stand.
int train(World &w, int count) {
    auto *car = w.shape(new btBoxShape(btVector3(0.9f, 0.3f, 0.4f))), *post = w.shape(new btBoxShape(btVector3(0.2f, 1, 0.2f))),
         *bump = w.shape(new btBoxShape(btVector3(0.8f, 0.1f, 0.8f)));
    w.ground(400);
    int cars = count / 4, trains = std::max(1, cars / 12);
    for (int k = 0; k < trains; k++) {
        btRigidBody *ahead = nullptr;
        for (int n = 0; n < 12; n++) {
            auto *body = w.add(1, car, btVector3(-btScalar(n) * 2.1f, 0.5f, btScalar(k) * 4));
            body->setFriction(0.05f);
            body->setActivationState(DISABLE_DEACTIVATION);
            body->setLinearVelocity(btVector3(6, 0, 0));
            if (ahead) w.join(new btPoint2PointConstraint(*ahead, *body, btVector3(-1.05f, 0, 0), btVector3(1.05f, 0, 0)));
            else body->setDamping(0, 0);
            ahead = body;
        }
    }
    for (int k = int(w.bodies.size()) - 1; k < count; k++) {
        bool stands = k % 3 == 0;
        w.add(0, stands ? post : bump, btVector3(w.part(160) - 30, stands ? 1 : -0.05f, stands ? btScalar(int(w.part(btScalar(trains)))) * 4 + 2 : w.part(btScalar(trains) * 4)));
    }
    return 30;
}

// Boxes that were dropped in a heap and have come to rest.
int rest(World &w, int count) {
    auto *box = w.shape(new btBoxShape(btVector3(0.4f, 0.4f, 0.4f)));
    w.ground(100);
    int side = std::max(8, int(std::cbrt(count) * 1.5));
    for (int k = 0; k < count; k++)
        w.add(1, box, btVector3(btScalar(k % side) * 1.1f + w.part(0.2f), 1 + btScalar(k / (side * side)) * 1.2f, btScalar(k / side % side) * 1.1f + w.part(0.2f)));
    return 600;
}

void put(const char *head, const Box &box) {
    std::printf("%s", head);
    for (int64_t raw : box.at) std::printf(" %.5f", double(raw) / 65536);
    std::printf("\n");
}

}  // namespace

int main(int argc, char **argv) {
    struct { const char *name; int (*make)(World &, int); } kinds[] = {{"tower", tower}, {"hopper", hopper}, {"chains", chains}, {"train", train}, {"rest", rest}};
    int count = argc == 4 ? std::atoi(argv[2]) : 0, steps = argc == 4 ? std::atoi(argv[3]) : 0;
    for (auto &kind : kinds) {
        if (argc != 4 || std::strcmp(kind.name, argv[1]) || count < 1 || count > 8000 || steps < 1) continue;
        World w;
        int before = kind.make(w, count);
        for (int step = 0; step < before; step++) w.world.stepSimulation(tick, 0);
        std::vector<Box> boxes;
        std::printf("scene 1\n");
        for (std::size_t k = 0; k < w.bodies.size(); k++) {
            boxes.push_back(w.box(k));
            put("add", boxes.back());
        }
        std::printf("frame\n");
        for (int step = 0; step < steps; step++) {
            w.world.stepSimulation(tick, 0);
            for (std::size_t k = 0; k < boxes.size(); k++) {
                Box now = w.box(k);
                if (!(now != boxes[k])) continue;
                boxes[k] = now;
                char head[32];
                std::snprintf(head, sizeof head, "move %zu:0", k);
                put(head, now);
            }
            std::printf("frame\n");
        }
        return 0;
    }
    std::fprintf(stderr, "usage: physics tower|hopper|chains|train|rest BODIES STEPS, of 1 to 8000 bodies\n");
    return 2;
}
