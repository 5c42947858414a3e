// Times what a planner asks of a manager, over the library and over FCL's own. Each plays the same frames. What the library finds must be
// what FCL's naive manager finds, which tests all: as many pairs, and the same distances. What another one of FCL's finds less is told.
//
//     bindings/out/times              2,000 and 8,000 objects, the least of 5 rounds in turn
//     bindings/out/times 2000 9       objects and rounds
//     bindings/out/times check        few objects, and no time is told
//
// It prints the microseconds of the thread's processor time that a frame takes, and the ratio of the library's best to FCL's best: below 1
// the library is faster. Managers differ in what they leave for the question, so of a frame that moves the ratio is of both parts together.
// Callbacks only count the boxes that meet, or take the distance of boxes, so that what is timed is the broad phase.
#include "pungwelair_manager.hpp"
#include <cstdio>
#include <cstdlib>
#include <cstring>
#include <ctime>
#include <fcl/broadphase/broadphase_SSaP.h>
#include <fcl/broadphase/broadphase_SaP.h>
#include <fcl/broadphase/broadphase_bruteforce.h>
#include <fcl/broadphase/broadphase_dynamic_AABB_tree.h>
#include <fcl/broadphase/broadphase_dynamic_AABB_tree_array.h>
#include <memory>
#include <random>
#include <string>

namespace {

using Manager = fcl::BroadPhaseCollisionManagerd;
using Object = fcl::CollisionObjectd;
using Objects = std::vector<Object*>;
using pungwelair::Structure;

// The last of them is asked first, since it tells what is right.
constexpr std::size_t ours = 3, kinds = 8, naive = kinds - 1;
const char* names[kinds] = {"tree", "grid", "skin", "FCL's tree", "FCL's tree in an array", "FCL's SaP", "FCL's SSaP", "FCL's naive"};

std::unique_ptr<Manager> made(std::size_t kind) {
    switch (kind) {
        case 0: return std::make_unique<pungwelair::FclManager<double>>(Structure::tree);
        case 1: return std::make_unique<pungwelair::FclManager<double>>(Structure::grid);
        case 2: return std::make_unique<pungwelair::FclManager<double>>(Structure::skin);
        case 3: return std::make_unique<fcl::DynamicAABBTreeCollisionManagerd>();
        case 4: return std::make_unique<fcl::DynamicAABBTreeCollisionManager_Arrayd>();
        case 5: return std::make_unique<fcl::SaPCollisionManagerd>();
        case 6: return std::make_unique<fcl::SSaPCollisionManagerd>();
        default: return std::make_unique<fcl::NaiveCollisionManagerd>();
    }
}

struct Shape final : fcl::CollisionGeometryd {
    void computeLocalAABB() override {}
};

struct Scene {
    std::mt19937 random{17};
    std::vector<std::shared_ptr<Shape>> shapes;
    std::vector<std::unique_ptr<Object>> objects;
    double room;

    // The room grows with the objects, so that each meets as many.
    Scene(std::size_t count, double within) : room(within) {
        for (std::size_t k = 0; k < count; k++) {
            shapes.push_back(std::make_shared<Shape>());
            objects.push_back(std::make_unique<Object>(shapes.back()));
            shapes[k]->aabb_local.min_ = fcl::Vector3d(part(room), part(room), part(room));
            shapes[k]->aabb_local.max_ = shapes[k]->aabb_local.min_ + fcl::Vector3d(part(1.5), part(1.5), part(1.5));
            objects[k]->computeAABB();
        }
    }
    double part(double most) { return double(random()) / 4294967296.0 * most; }
    void move(std::size_t k, double most) {
        fcl::Vector3d by(part(2 * most) - most, part(2 * most) - most, part(2 * most) - most);
        shapes[k]->aabb_local.min_ += by;
        shapes[k]->aabb_local.max_ += by;
        objects[k]->computeAABB();
    }
    Objects all() const {
        Objects objects_of;
        for (auto& object : objects) objects_of.push_back(object.get());
        return objects_of;
    }
};

struct Answer {
    std::size_t count = 0;
    double sum = 0, least = 0;
};

// The naive manager tells all, and leaves it to the callback which boxes meet.
bool on_collision(Object* a, Object* b, void* data) {
    if (a->getAABB().overlap(b->getAABB())) static_cast<Answer*>(data)->count++;
    return false;
}
bool on_distance(Object* a, Object* b, void* data, double& least) {
    auto& answer = *static_cast<Answer*>(data);
    answer.least = std::min(answer.least, a->getAABB().distance(b->getAABB()));
    least = answer.least;
    return least <= 0;
}

double now() {
    std::timespec time;
    clock_gettime(CLOCK_THREAD_CPUTIME_ID, &time);
    return double(time.tv_sec) * 1e6 + double(time.tv_nsec) / 1e3;
}

enum class Load { tenth, all, little, collide, distance, links, small };
struct Row {
    Load load;
    const char* name;
    bool moves;
};
constexpr Row rows[] = {{Load::tenth, "a tenth moves", true},
                        {Load::all, "all move", true},
                        {Load::little, "all move by little", true},
                        {Load::collide, "1,000 objects ask what they meet", false},
                        {Load::distance, "200 objects ask for the distance", false},
                        {Load::links, "30 links in a manager of their own: pairs and distance", false},
                        {Load::small, "a manager of 30 objects is made, asked and dropped", false}};

// Microseconds a frame: of `update`, if the objects of the manager move, of the questions, and of both.
struct Times {
    double parts[3] = {1e300, 1e300, 1e300};
    void take(const Times& other) {
        for (int k = 0; k < 3; k++) parts[k] = std::min(parts[k], other.parts[k]);
    }
};

Times play(Load load, std::size_t kind, std::size_t count, Answer& answer) {
    double room = 1.3 * std::cbrt(double(count));
    Scene scene(count, room), asking(1000, room);
    Objects all = scene.all(), askers = asking.all(), links(askers.begin(), askers.begin() + 30), some;
    auto manager = made(kind), of_links = made(kind);
    manager->registerObjects(all);
    manager->setup();
    of_links->registerObjects(links);
    of_links->setup();
    constexpr int untimed = 2, frames = 10;
    double updated = 0, asked = 0;
    answer = Answer();
    for (int frame = 0; frame < untimed + frames; frame++) {
        some.clear();
        for (std::size_t k = 0; k < count; k++) {
            bool moves = load == Load::all || load == Load::little || (load == Load::tenth && scene.random() % 10 == 0);
            if (!moves) continue;
            scene.move(k, load == Load::little ? 0.01 : 1);
            some.push_back(all[k]);
        }
        if (load == Load::links)
            for (std::size_t k = 0; k < links.size(); k++) asking.move(k, 1);
        double start = now();
        if (load == Load::tenth) manager->update(some);
        if (load == Load::all || load == Load::little) manager->update();
        double between = now();
        switch (load) {
            case Load::tenth:
            case Load::all:
            case Load::little: manager->collide(&answer, on_collision); break;
            case Load::collide:
                for (Object* asker : askers) manager->collide(asker, &answer, on_collision);
                break;
            case Load::distance:
                for (std::size_t k = 0; k < 200; k++) {
                    answer.least = std::numeric_limits<double>::max();
                    manager->distance(askers[k], &answer, on_distance);
                    answer.sum += answer.least;
                }
                break;
            case Load::links:
                of_links->update();
                manager->collide(of_links.get(), &answer, on_collision);
                answer.least = std::numeric_limits<double>::max();
                manager->distance(of_links.get(), &answer, on_distance);
                answer.sum += answer.least;
                break;
            case Load::small: {
                auto made_now = made(kind);
                made_now->registerObjects(links);
                made_now->setup();
                made_now->collide(&answer, on_collision);
                break;
            }
        }
        if (frame >= untimed) updated += between - start, asked += now() - between;
    }
    Times times;
    times.parts[0] = updated / frames, times.parts[1] = asked / frames, times.parts[2] = (updated + asked) / frames;
    return times;
}

void tell(const char* name, std::size_t count, const Times (&least)[kinds], int part, bool compares) {
    auto is_less = [part](const Times& one, const Times& other) { return one.parts[part] < other.parts[part]; };
    auto best = [&](std::size_t from, std::size_t to) { return std::min_element(least + from, least + to, is_less)->parts[part]; };
    std::printf("| %s | %zu |", name, count);
    for (const Times& times : least) std::printf(" %.0f |", times.parts[part]);
    if (compares)
        std::printf(" %.2f |\n", best(0, ours) / best(ours, kinds));
    else
        std::printf("  |\n");
}

bool measure(std::size_t count, int rounds, bool tells_times) {
    bool are_same = true;
    std::vector<std::string> notes;
    for (const Row& row : rows) {
        Times least[kinds];
        Answer right;
        for (int round = 0; round < rounds; round++)
            for (std::size_t turn = 0; turn < kinds; turn++) {
                std::size_t kind = (turn + naive) % kinds;
                Answer answer;
                least[kind].take(play(row.load, kind, count, answer));
                if (round > 0) continue;
                if (kind == naive) right = answer;
                if (answer.count == right.count && answer.sum == right.sum) continue;
                are_same &= kind >= ours;
                std::string note = std::string(row.name) + ", " + std::to_string(count) + " objects: " + names[kind] + " has " +
                                   std::to_string(answer.count) + " pairs of " + std::to_string(right.count);
                if (answer.sum != right.sum) note += ", and other distances";
                notes.push_back(note);
            }
        if (!tells_times) continue;
        if (row.moves) {
            tell((std::string(row.name) + ": update").c_str(), count, least, 0, false);
            tell((std::string(row.name) + ": pairs").c_str(), count, least, 1, false);
            tell((std::string(row.name) + ": both").c_str(), count, least, 2, true);
        } else {
            tell(row.name, count, least, 1, true);
        }
        std::fflush(stdout);
    }
    for (const std::string& note : notes) std::printf("%s%s\n", tells_times ? "\n" : "", note.c_str());
    return are_same;
}

}  // namespace

int main(int argc, char** argv) {
    auto tell_head = [] {
        std::printf("| Frame | objects |");
        for (const char* name : names) std::printf(" %s |", name);
        std::printf(" ours : FCL's |\n|---|---|");
        for (std::size_t kind = 0; kind < kinds; kind++) std::printf("---|");
        std::printf("---|\n");
    };
    if (argc > 1 && std::strcmp(argv[1], "check") == 0) {
        bool are_same = measure(300, 1, false);
        std::printf("times: %s\n", are_same ? "all answers are those of FCL's naive manager" : "failed");
        return !are_same;
    }
    bool are_same = true;
    int rounds = argc > 2 ? std::atoi(argv[2]) : 5;
    std::vector<std::size_t> counts = {2000, 8000};
    if (argc > 1) counts = {std::size_t(std::atol(argv[1]))};
    for (std::size_t count : counts) {
        tell_head();
        are_same &= measure(count, rounds, true);
    }
    return !are_same;
}
