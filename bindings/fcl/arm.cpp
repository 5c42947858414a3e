// A robot's links among a thousand obstacles, over the library and over FCL's naive manager, which tests all. The robot moves, obstacles
// come and go, and walls without end stand around. The same pairs must collide, and the same distances be least. Times are told.
#include "pungwelair_manager.hpp"
#include <cstdio>
#include <ctime>
#include <fcl/fcl.h>
#include <memory>
#include <random>
#include <set>

namespace {

int failures;

void expect(bool is_so, const char* what, int round) {
    if (!is_so && ++failures <= 20) std::printf("round %d: not so: %s\n", round, what);
}

template <class S>
struct Scene {
    using Object = fcl::CollisionObject<S>;
    std::vector<std::unique_ptr<Object>> obstacles, links;
    std::mt19937 random{11};

    S part(double most) { return S(most * double(random() % 100000) / 100000); }
    fcl::Transform3<S> place(double room) {
        fcl::Transform3<S> at = fcl::Transform3<S>::Identity();
        at.translation() = fcl::Vector3<S>(part(room), part(room), part(room));
        at.linear() = Eigen::AngleAxis<S>(part(3), fcl::Vector3<S>(part(1), part(1), S(1)).normalized()).toRotationMatrix();
        return at;
    }
    Scene() {
        for (int k = 0; k < 1000; k++) {
            std::shared_ptr<fcl::CollisionGeometry<S>> shape;
            if (k % 3 == 0)
                shape = std::make_shared<fcl::Box<S>>(S(0.2) + part(0.5), S(0.2) + part(0.5), S(0.2) + part(0.5));
            else if (k % 3 == 1)
                shape = std::make_shared<fcl::Sphere<S>>(S(0.1) + part(0.3));
            else
                shape = std::make_shared<fcl::Capsule<S>>(S(0.1), S(0.3) + part(0.5));
            obstacles.push_back(std::make_unique<Object>(shape, place(12)));
        }
        obstacles.push_back(
            std::make_unique<Object>(std::make_shared<fcl::Halfspace<S>>(fcl::Vector3<S>(0, 0, 1), S(-3)), fcl::Transform3<S>::Identity()));
        for (int k = 0; k < 8; k++)
            links.push_back(std::make_unique<Object>(std::make_shared<fcl::Capsule<S>>(S(0.12), S(0.8)), place(12)));
        for (auto& object : obstacles) object->computeAABB();
        move();
    }
    void move() {
        fcl::Transform3<S> base = place(12);
        for (std::size_t k = 0; k < links.size(); k++) {
            fcl::Transform3<S> at = base;
            at.translation() += fcl::Vector3<S>(S(double(k) * 0.5), part(0.3), part(0.3));
            links[k]->setTransform(at);
            links[k]->computeAABB();
        }
    }
};

template <class S>
struct Seen {
    std::set<std::pair<const void*, const void*>> pairs;
    long calls = 0;
    S least = std::numeric_limits<S>::max();
};

template <class S>
bool on_collision(fcl::CollisionObject<S>* a, fcl::CollisionObject<S>* b, void* data) {
    auto& seen = *static_cast<Seen<S>*>(data);
    seen.calls++;
    fcl::CollisionRequest<S> request;
    fcl::CollisionResult<S> result;
    if (fcl::collide(a, b, request, result) > 0) seen.pairs.insert(std::minmax<const void*>(a, b));
    return false;
}

template <class S>
bool on_distance(fcl::CollisionObject<S>* a, fcl::CollisionObject<S>* b, void* data, S& least) {
    auto& seen = *static_cast<Seen<S>*>(data);
    seen.calls++;
    // The distance of boxes stands for that of shapes here, since FCL's own of some shapes are inexact.
    seen.least = std::min(seen.least, S(a->getAABB().distance(b->getAABB())));
    least = seen.least;
    return least <= 0;
}

template <class S>
void compare(pungwelair::Structure structure, const char* name) {
    using Manager = fcl::BroadPhaseCollisionManager<S>;
    Scene<S> scene;
    pungwelair::FclManager<S> ours(structure), our_links(structure);
    fcl::NaiveCollisionManager<S> naive, naive_links;
    std::vector<fcl::CollisionObject<S>*> obstacles, links;
    for (auto& object : scene.obstacles) obstacles.push_back(object.get());
    for (auto& object : scene.links) links.push_back(object.get());
    for (auto* manager : {static_cast<Manager*>(&ours), static_cast<Manager*>(&naive)})
        manager->registerObjects(obstacles), manager->setup();
    for (auto* manager : {static_cast<Manager*>(&our_links), static_cast<Manager*>(&naive_links)})
        manager->registerObjects(links), manager->setup();
    expect(ours.size() == obstacles.size() && !ours.empty(), "all objects are there", 0);
    std::clock_t taken[2] = {0, 0};
    long met = 0;
    auto both = [&](const char* what, int round, auto&& ask) {
        Seen<S> one, two;
        std::clock_t start = std::clock();
        ask(ours, our_links, one);
        taken[0] += std::clock() - start;
        start = std::clock();
        ask(naive, naive_links, two);
        taken[1] += std::clock() - start;
        expect(one.pairs == two.pairs && one.least == two.least, what, round);
        met += long(one.pairs.size());
    };
    for (int round = 0; round < 12; round++) {
        scene.move();
        for (std::size_t k = std::size_t(round); k < obstacles.size() - 1; k += 5)
            obstacles[k]->setTransform(scene.place(12)), obstacles[k]->computeAABB();
        for (auto* manager : {static_cast<Manager*>(&ours), static_cast<Manager*>(&naive), static_cast<Manager*>(&our_links),
                              static_cast<Manager*>(&naive_links)})
            manager->update();
        if (round == 5)
            for (auto* manager : {static_cast<Manager*>(&ours), static_cast<Manager*>(&naive)})
                manager->unregisterObject(obstacles[3]), manager->update(obstacles[4]);
        if (round == 8)
            for (auto* manager : {static_cast<Manager*>(&ours), static_cast<Manager*>(&naive)}) manager->registerObject(obstacles[3]);
        both("the same objects collide with each other", round, [](auto& all, auto&, auto& seen) { all.collide(&seen, on_collision<S>); });
        both("the same obstacles collide with a robot", round,
             [](auto& all, auto& robot, auto& seen) { all.collide(&robot, &seen, on_collision<S>); });
        both("the same distance to a robot", round,
             [](auto& all, auto& robot, auto& seen) { all.distance(&robot, &seen, on_distance<S>); });
        both("the same least distance of all", round, [](auto&, auto& robot, auto& seen) { robot.distance(&seen, on_distance<S>); });
        for (auto* link : links) {
            both("the same obstacles collide with a link", round,
                 [&](auto& all, auto&, auto& seen) { all.collide(link, &seen, on_collision<S>); });
            both("the same distance to a link", round, [&](auto& all, auto&, auto& seen) { all.distance(link, &seen, on_distance<S>); });
        }
    }
    ours.clear();
    expect(ours.empty(), "a cleared manager has no object", 12);
    expect(met > 100, "objects collide", 12);
    std::printf("%s: %.1f ms for twelve rounds, and %.1f ms over FCL's naive manager\n", name, double(taken[0]) * 1000 / CLOCKS_PER_SEC,
                double(taken[1]) * 1000 / CLOCKS_PER_SEC);
}

}  // namespace

int main() {
    compare<double>(pungwelair::Structure::tree, "tree, double");
    compare<float>(pungwelair::Structure::tree, "tree, float");
    compare<double>(pungwelair::Structure::grid, "grid, double");
    compare<double>(pungwelair::Structure::skin, "skin, double");
    std::printf("arm: %d failed\n", failures);
    return failures != 0;
}
