// Random rounds of all calls of a manager over the library, beside FCL's naive manager, which tests all: the same objects are told to each
// callback, and the same distances are least. Boxes touch, lie far out, are inverted, endless, or of NaNs. Callbacks stop, ask, throw and
// try to change the manager; threads ask at once; each request of memory is refused in turn; one manager has more objects than a world.
#include "pungwelair.h"

// Frames that managers end: none, since the pairs of now are asked for.
static long frames_ended;
static inline pw_status counted_update(pw_world* world, pw_counts* counts) {
    frames_ended++;
    return pw_update(world, counts);
}
#define pw_update counted_update

#include "pungwelair_manager.hpp"
#include <cstdio>
#include <cstdlib>
#include <fcl/broadphase/broadphase_bruteforce.h>
#include <fcl/broadphase/broadphase_dynamic_AABB_tree.h>
#include <memory>
#include <new>
#include <random>
#include <set>
#include <stdexcept>
#include <thread>

namespace {

using pungwelair::FclManager;
using pungwelair::FclRefused;
using pungwelair::Status;
using pungwelair::Structure;

std::atomic<long> claims;
std::atomic<int> failures;

void expect(bool is_so, const char* what, long round) {
    claims++;
    if (!is_so && ++failures <= 20) std::printf("round %ld: not so: %s\n", round, what);
}

// While memory is counted a request is refused if it is the one behind `granted` others.
bool is_counted = false;
long granted = -1, asked = 0;

bool is_refused() {
    if (!is_counted) return false;
    asked++;
    return granted >= 0 && granted-- == 0;
}

}  // namespace

// The library's heap.
extern "C" {
struct tried {
    bool ok;
    void* p;
};
static char nothing;
static tried told(void* p) { return {p != nullptr, p ? p : &nothing}; }
tried rattle_alloc(std::size_t size, std::size_t align) { return told(is_refused() ? nullptr : std::malloc(size ? size : align)); }
tried rattle_realloc(void* p, std::size_t, std::size_t size, std::size_t align) {
    return told(is_refused() ? nullptr : std::realloc(p, size ? size : align));
}
void rattle_dealloc(void* p) { std::free(p); }
}

// The heap of C++. Inlined, g++ takes free for a mismatch of new.
[[gnu::noinline]] void* operator new(std::size_t size) {
    void* got = is_refused() ? nullptr : std::malloc(size ? size : 1);
    if (!got) throw std::bad_alloc();
    return got;
}
[[gnu::noinline]] void operator delete(void* p) noexcept { std::free(p); }
[[gnu::noinline]] void operator delete(void* p, std::size_t) noexcept { std::free(p); }

namespace {

// What is only a box.
template <class S>
struct Shape final : fcl::CollisionGeometry<S> {
    void computeLocalAABB() override {}
};

template <class S>
using Object = fcl::CollisionObject<S>;
template <class S>
using Objects = std::vector<Object<S>*>;
template <class S>
using Pairs = std::vector<std::pair<Object<S>*, Object<S>*>>;

// Objects that stand anywhere. An inverted box has no distance, so some scenes have none.
template <class S>
struct Scene {
    std::mt19937 random;
    std::vector<std::shared_ptr<Shape<S>>> shapes;
    std::vector<std::unique_ptr<Object<S>>> objects;
    S room, corner;
    bool has_inverted;

    // Most objects stand in a cube of `within` units, whose least corner is at `from` on each axis.
    Scene(unsigned seed, std::size_t count, S within, bool inverted, S from = 0)
        : random(seed), room(within), corner(from), has_inverted(inverted) {
        for (std::size_t k = 0; k < count; k++) {
            shapes.push_back(std::make_shared<Shape<S>>());
            objects.push_back(std::make_unique<Object<S>>(shapes.back()));
            objects.back()->setUserData(reinterpret_cast<void*>(k));
            place(k);
        }
    }
    std::size_t below(std::size_t most) { return random() % most; }
    S part(S most) { return S(double(random()) / 4294967296.0) * most; }
    Object<S>* any() { return objects[below(objects.size())].get(); }

    void place(std::size_t k) {
        constexpr S endless = std::numeric_limits<S>::infinity(), largest = std::numeric_limits<S>::max();
        constexpr S nan = std::numeric_limits<S>::quiet_NaN();
        fcl::Vector3<S> low(corner + part(room), corner + part(room), corner + part(room));
        fcl::Vector3<S> high = low + fcl::Vector3<S>(part(3), part(3), part(3));
        std::size_t kind = below(48);
        auto axis = Eigen::Index(below(3));
        if (kind == 0) low[axis] = -endless;
        if (kind == 1) low.setConstant(-largest), high.setConstant(largest);
        if (kind == 2) low[axis] += S(100000), high[axis] += S(100000);
        if (kind == 3) low *= S(-1e12), high = low;
        if (kind == 4) low[axis] = high[axis] = -endless;
        if (kind == 5) low[axis] = high[axis] = nan;
        if (kind == 6) high[axis] = nan;
        if (kind == 7) high[axis] = low[axis] + room;
        // Whole numbers touch.
        if (kind > 34) low = low.array().floor(), high = high.array().floor();
        if (has_inverted && kind == 8) std::swap(low[axis], high[axis]);
        // The box that FCL makes, before it is given another.
        if (has_inverted && kind == 9) low.setConstant(largest), high.setConstant(-largest);
        shapes[k]->aabb_local.min_ = low;
        shapes[k]->aabb_local.max_ = high;
        objects[k]->computeAABB();
    }
};

// What callbacks heard. One that has heard of `enough` pairs stops.
template <class S>
struct Heard {
    Pairs<S> pairs;
    std::size_t enough = ~std::size_t(0);
    S least = std::numeric_limits<S>::max();
    bool is_wrong = false;

    static bool of_collision(Object<S>* a, Object<S>* b, void* data) {
        auto& heard = *static_cast<Heard*>(data);
        heard.is_wrong |= !a->getAABB().overlap(b->getAABB());
        heard.pairs.push_back({a, b});
        return heard.pairs.size() >= heard.enough;
    }
    // Asked for one object, FCL's naive manager tells all, whether or not they meet.
    static bool of_any(Object<S>* a, Object<S>* b, void* data) { return a->getAABB().overlap(b->getAABB()) && of_collision(a, b, data); }
    static bool of_distance(Object<S>* a, Object<S>* b, void* data, S& least) {
        auto& heard = *static_cast<Heard*>(data);
        S apart = a->getAABB().distance(b->getAABB());
        heard.is_wrong |= !(apart < least) || least != heard.least;
        heard.pairs.push_back({a, b});
        // Some pairs don't count, as those that a planner lets collide.
        auto number = [](Object<S>* object) { return reinterpret_cast<std::size_t>(object->getUserData()); };
        if ((number(a) + number(b)) % 3 != 0) least = heard.least = std::min(least, apart);
        return heard.pairs.size() >= heard.enough;
    }
    // In an order of their own. Of a pair of one manager's objects either may come first.
    Pairs<S> sorted(bool is_ordered) const {
        Pairs<S> all = pairs;
        for (auto& pair : all)
            if (!is_ordered && pair.second < pair.first) std::swap(pair.first, pair.second);
        std::sort(all.begin(), all.end());
        return all;
    }
};

// A manager over the library, and FCL's naive one with the same objects.
template <class S>
struct Both {
    Scene<S>& scene;
    FclManager<S> ours;
    fcl::NaiveCollisionManager<S> naive;
    std::set<Object<S>*> in;
    long round = 0;

    Both(Scene<S>& of, Structure structure, double scale = 1) : scene(of), ours(structure, scale) {}

    void add(const Objects<S>& objects) {
        ours.registerObjects(objects);
        for (Object<S>* object : objects)
            if (in.insert(object).second) naive.registerObject(object);
    }
    void remove(Object<S>* object) {
        ours.unregisterObject(object);
        naive.unregisterObject(object);
        in.erase(object);
    }
    void clear() {
        ours.clear();
        naive.clear();
        in.clear();
    }
    void has_all() const {
        Objects<S> all{nullptr};
        ours.getObjects(all);
        expect(all.size() == in.size() && std::set<Object<S>*>(all.begin(), all.end()) == in, "its objects are those that came", round);
        expect(ours.size() == in.size() && ours.empty() == in.empty(), "and so is its size", round);
    }

    // What the naive manager tells.
    template <class AskNaive>
    static Heard<S> told(AskNaive ask_naive) {
        Heard<S> heard;
        ask_naive(heard);
        return heard;
    }
    // The same pairs, each as often, and a callback that has had enough hears of no other.
    template <class Ask>
    void collides(const char* what, bool is_ordered, const Heard<S>& two, Ask ask) {
        Heard<S> one, some;
        ask(one);
        expect(!one.is_wrong && one.sorted(is_ordered) == two.sorted(is_ordered), what, round);
        if (two.pairs.empty()) return;
        some.enough = 1 + scene.below(two.pairs.size());
        ask(some);
        expect(some.pairs.size() == some.enough, "a callback stops a question", round);
    }
    // The same least distance, no pair twice, and none that is farther than the bound.
    template <class Ask>
    void is_least(const char* what, bool is_ordered, const Heard<S>& two, Ask ask) {
        Heard<S> one, some;
        ask(one);
        Pairs<S> all = one.sorted(is_ordered);
        expect(!one.is_wrong && one.least == two.least, what, round);
        expect(one.pairs.empty() == two.pairs.empty(), "a callback hears of a pair if there is one", round);
        expect(std::adjacent_find(all.begin(), all.end()) == all.end(), "and of each once", round);
        if (one.pairs.empty()) return;
        some.enough = 1 + scene.below(one.pairs.size());
        ask(some);
        expect(some.pairs.size() == some.enough, "a callback stops a question of distance", round);
    }

    void asked_by(Object<S>* object) {
        Heard<S> met = told([&](auto& heard) { naive.collide(object, &heard, Heard<S>::of_any); });
        collides("the same objects collide with one", true, met,
                 [&](auto& heard) { ours.collide(object, &heard, Heard<S>::of_collision); });
        if (scene.has_inverted) return;
        Heard<S> apart = told([&](auto& heard) { naive.distance(object, &heard, Heard<S>::of_distance); });
        is_least("the same distance to one", true, apart, [&](auto& heard) { ours.distance(object, &heard, Heard<S>::of_distance); });
    }
    void asked_by_itself() {
        Heard<S> met = told([&](auto& heard) { naive.collide(&heard, Heard<S>::of_collision); });
        collides("the same objects collide", false, met, [&](auto& heard) { ours.collide(&heard, Heard<S>::of_collision); });
        collides("and of a manager with itself", false, met, [&](auto& heard) { ours.collide(&ours, &heard, Heard<S>::of_collision); });
        if (scene.has_inverted) return;
        Heard<S> apart = told([&](auto& heard) { naive.distance(&heard, Heard<S>::of_distance); });
        is_least("the same distance of all", false, apart, [&](auto& heard) { ours.distance(&heard, Heard<S>::of_distance); });
        is_least("and of a manager to itself", false, apart, [&](auto& heard) { ours.distance(&ours, &heard, Heard<S>::of_distance); });
    }
    // The other manager is over the library too, or is FCL's.
    void asked_by_another(Both& other) {
        Heard<S> met = told([&](auto& heard) { naive.collide(&other.naive, &heard, Heard<S>::of_collision); });
        Heard<S> apart;
        if (!scene.has_inverted) apart = told([&](auto& heard) { naive.distance(&other.naive, &heard, Heard<S>::of_distance); });
        fcl::BroadPhaseCollisionManager<S>* kinds[] = {&other.ours, &other.naive};
        for (auto* kind : kinds) {
            collides("the same objects of two collide", true, met,
                     [&](auto& heard) { ours.collide(kind, &heard, Heard<S>::of_collision); });
            if (scene.has_inverted) continue;
            is_least("the same distance of two", true, apart, [&](auto& heard) { ours.distance(kind, &heard, Heard<S>::of_distance); });
        }
    }
};

template <class S>
void change(Both<S>& both) {
    Scene<S>& scene = both.scene;
    Objects<S> some;
    for (std::size_t k = scene.below(30); k-- > 0;) some.push_back(scene.any());
    switch (scene.below(8)) {
        case 0: both.add(some); break;
        case 1: both.add({scene.any()}); break;
        case 2: both.ours.registerObject(scene.objects[0].get()), both.add({scene.objects[0].get()}); break;
        case 3:
            for (Object<S>* object : some) both.remove(object);
            break;
        case 4: both.remove(scene.any()); break;
        case 5: {
            std::size_t k = scene.below(scene.objects.size());
            scene.place(k);
            both.ours.update(scene.objects[k].get());
            break;
        }
        case 6:
            for (Object<S>* object : some) scene.place(reinterpret_cast<std::size_t>(object->getUserData()));
            some.insert(some.end(), some.begin(), some.end());
            both.ours.update(some);
            break;
        default:
            for (std::size_t k = 0; k < scene.objects.size(); k += 2) scene.place(k);
            both.ours.update();
            if (scene.below(30) == 0) both.clear();
            break;
    }
}

// Two managers that share some objects.
template <class S>
void play(unsigned seed, Structure structure, std::size_t count, S room, long rounds, double scale, bool inverted, S corner = 0) {
    Scene<S> scene(seed, count, room, inverted, corner);
    Both<S> one(scene, structure, scale), two(scene, Structure::tree);
    Objects<S> all;
    for (auto& object : scene.objects) all.push_back(object.get());
    one.add(all);
    one.ours.setup();
    for (long round = 0; round < rounds; round++) {
        one.round = two.round = round;
        change(one);
        change(two);
        // What moved in one may be in the other.
        one.ours.update();
        two.ours.update();
        one.has_all();
        two.has_all();
        for (int k = 0; k < 6; k++) one.asked_by(scene.any());
        one.asked_by_itself();
        one.asked_by_another(two);
        two.asked_by_another(one);
    }
}

// More objects than a world holds.
template <class S>
void play_many(std::size_t count) {
    Scene<S> scene(7, count, S(140), false);
    Both<S> both(scene, Structure::grid), few(scene, Structure::tree);
    Objects<S> all;
    for (auto& object : scene.objects) all.push_back(object.get());
    both.add(all);
    few.add({all[0], all[count - 1], all[count / 2]});
    for (long round = 0; round < 2; round++) {
        both.round = round;
        both.has_all();
        for (int k = 0; k < 40; k++) both.asked_by(scene.any());
        both.asked_by_itself();
        both.asked_by_another(few);
        few.asked_by_another(both);
        for (std::size_t k = 0; k < count; k += 3) scene.place(k);
        both.ours.update();
        few.ours.update();
        for (std::size_t k = 1; k < 100; k++) both.remove(all[k]);
        both.add({all[1], all[2]});
    }
    both.clear();
    both.has_all();
}

// What a callback does besides.
template <class S>
struct Within {
    Both<S>* both;
    Both<S>* other;
    Object<S>* object;
    Pairs<S> expected, expected_of_all;
    int calls = 0;
    bool throws = false;

    static bool of_collision(Object<S>*, Object<S>*, void* data) { return static_cast<Within*>(data)->call(); }
    static bool of_distance(Object<S>*, Object<S>*, void* data, S&) { return static_cast<Within*>(data)->call(); }

    template <class Change>
    void is_refused(const char* what, Change change) {
        bool is = false;
        try {
            change();
        } catch (const FclRefused& refused) {
            is = refused.status() == Status::argument;
        }
        expect(is, what, both->round);
    }
    bool call() {
        if (throws) throw std::runtime_error("enough");
        if (++calls > 5) return true;
        FclManager<S>& ours = both->ours;
        Heard<S> heard, of_all;
        ours.collide(object, &heard, Heard<S>::of_collision);
        expect(heard.sorted(true) == expected, "a callback asks for an object", both->round);
        ours.collide(&of_all, Heard<S>::of_collision);
        expect(of_all.sorted(false) == expected_of_all, "a callback asks for all", both->round);
        is_refused("a callback adds nothing", [&] { ours.registerObject(object); });
        is_refused("a callback adds no objects", [&] { ours.registerObjects({object}); });
        is_refused("a callback removes nothing", [&] { ours.unregisterObject(object); });
        is_refused("a callback updates nothing", [&] { ours.update(); });
        is_refused("a callback updates no object", [&] { ours.update(object); });
        is_refused("a callback updates no objects", [&] { ours.update(Objects<S>{object}); });
        is_refused("a callback clears nothing", [&] { ours.clear(); });
        both->has_all();
        // Another manager, which isn't asked, may be changed.
        other->remove(object);
        other->add({object});
        return false;
    }
};

template <class S>
void ask_within() {
    Scene<S> scene(5, 400, S(12), false);
    Both<S> both(scene, Structure::skin), other(scene, Structure::tree);
    Objects<S> all;
    for (auto& object : scene.objects) all.push_back(object.get());
    both.add(all);
    other.add({all[0], all[1]});
    FclManager<S>& ours = both.ours;
    for (both.round = 0; both.round < 30; both.round++) {
        Within<S> within{&both, &other, scene.any(), {}, {}};
        Heard<S> heard, of_all;
        both.naive.collide(within.object, &heard, Heard<S>::of_any);
        both.naive.collide(&of_all, Heard<S>::of_collision);
        within.expected = heard.sorted(true);
        within.expected_of_all = of_all.sorted(false);
        auto each = [&](auto ask) {
            within.calls = 0;
            within.throws = false;
            ask();
            expect(within.calls > 0, "callbacks that ask are called", both.round);
            // What a callback throws comes out of the question.
            bool is_thrown = false;
            within.throws = true;
            try {
                ask();
            } catch (const std::runtime_error&) {
                is_thrown = true;
            }
            expect(is_thrown, "a callback may throw", both.round);
            scene.place(scene.below(scene.objects.size()));
            Object<S>* moved = scene.any();
            both.remove(moved);
            both.add({moved});
            ours.update();
            other.ours.update();
            Heard<S> again, all_again;
            both.naive.collide(within.object, &again, Heard<S>::of_any);
            both.naive.collide(&all_again, Heard<S>::of_collision);
            within.expected = again.sorted(true);
            within.expected_of_all = all_again.sorted(false);
        };
        fcl::NaiveCollisionManager<S> asking;
        asking.registerObjects(all);
        each([&] { ours.collide(all[0], &within, Within<S>::of_collision); });
        each([&] { ours.distance(all[0], &within, Within<S>::of_distance); });
        each([&] { ours.collide(&within, Within<S>::of_collision); });
        each([&] { ours.distance(&within, Within<S>::of_distance); });
        each([&] { ours.collide(&asking, &within, Within<S>::of_collision); });
        each([&] { ours.distance(&asking, &within, Within<S>::of_distance); });
    }
}

// Threads ask a manager whose pairs aren't found yet, and one tries to change it meanwhile: a change is refused or done whole.
template <class S>
void ask_by_threads() {
    Scene<S> scene(9, 3000, S(40), false);
    Both<S> both(scene, Structure::tree);
    Objects<S> all;
    for (auto& object : scene.objects) all.push_back(object.get());
    both.add(all);
    for (both.round = 0; both.round < 4; both.round++) {
        for (std::size_t k = 0; k < all.size(); k += 5) scene.place(k);
        both.ours.update();
        Heard<S> of_all;
        both.naive.collide(&of_all, Heard<S>::of_collision);
        Pairs<S> pairs = of_all.sorted(false);
        std::vector<Heard<S>> near(200), far(200);
        for (std::size_t k = 0; k < near.size(); k++) {
            both.naive.collide(all[k], &near[k], Heard<S>::of_any);
            both.naive.distance(all[k], &far[k], Heard<S>::of_distance);
        }
        std::atomic<bool> is_over{false};
        std::thread changing([&] {
            while (!is_over) {
                try {
                    both.ours.unregisterObject(nullptr);
                    both.ours.update(all[0]);
                } catch (const FclRefused&) {
                }
                std::this_thread::yield();
            }
        });
        std::vector<std::thread> threads;
        for (int thread = 0; thread < 4; thread++)
            threads.emplace_back([&] {
                Heard<S> heard_of_all;
                both.ours.collide(&heard_of_all, Heard<S>::of_collision);
                expect(heard_of_all.sorted(false) == pairs, "threads ask for all", both.round);
                for (std::size_t k = 0; k < near.size(); k++) {
                    Heard<S> heard, apart;
                    both.ours.collide(all[k], &heard, Heard<S>::of_collision);
                    both.ours.distance(all[k], &apart, Heard<S>::of_distance);
                    expect(heard.sorted(true) == near[k].sorted(true), "threads ask for an object", both.round);
                    expect(apart.least == far[k].least, "threads ask for distances", both.round);
                }
            });
        for (std::thread& thread : threads) thread.join();
        is_over = true;
        changing.join();
    }
}

// A short play in which one request of memory is refused. How many it made.
template <class S>
long play_refused(Structure structure, long first) {
    Scene<S> scene(3, 60, S(5), false);
    Both<S> both(scene, structure);
    both.round = first;
    Objects<S> all, half;
    for (auto& object : scene.objects) all.push_back(object.get());
    half.assign(all.begin(), all.begin() + 30);
    asked = 0;
    granted = first;
    // Whether it was done. What was refused is done at a second try.
    auto is_done = [&](auto call) {
        bool is = false;
        is_counted = true;
        try {
            call();
            is = true;
        } catch (const FclRefused& refused) {
            is_counted = false;
            expect(refused.status() == Status::no_memory, "the refusal says why", first);
        } catch (const std::bad_alloc&) {
        }
        is_counted = false;
        return is;
    };
    auto change = [&](auto call) {
        if (is_done(call)) return;
        both.has_all();
        expect(is_done(call), "a change that was refused may be done again", first);
    };
    auto ask = [&] {
        for (int k = 0; k < 2; k++) {
            Object<S>* object = scene.any();
            Heard<S> heard, apart, two, two_apart;
            auto question = [&] {
                heard = Heard<S>();
                apart = Heard<S>();
                if (k == 0)
                    both.ours.collide(&heard, Heard<S>::of_collision), both.ours.distance(&apart, Heard<S>::of_distance);
                else
                    both.ours.collide(object, &heard, Heard<S>::of_collision), both.ours.distance(object, &apart, Heard<S>::of_distance);
            };
            if (!is_done(question)) expect(is_done(question), "a question may be asked again", first);
            if (k == 0)
                both.naive.collide(&two, Heard<S>::of_collision), both.naive.distance(&two_apart, Heard<S>::of_distance);
            else
                both.naive.collide(object, &two, Heard<S>::of_any), both.naive.distance(object, &two_apart, Heard<S>::of_distance);
            expect(heard.sorted(k > 0) == two.sorted(k > 0), "the same objects collide", first);
            expect(apart.least == two_apart.least, "the same distance is least", first);
        }
        both.has_all();
    };
    change([&] { both.ours.registerObjects(half); });
    both.add(half);
    ask();
    for (int step = 0; step < 2; step++) {
        for (std::size_t k = 0; k < all.size(); k += 4) scene.place(k);
        // What an update has not moved, the next question moves.
        if (!is_done([&] { both.ours.update(); })) both.has_all();
        ask();
        scene.place(1);
        if (!is_done([&] { both.ours.update(all[1]); })) both.has_all();
        ask();
        change([&] { both.ours.registerObject(all[50]); });
        both.add({all[50]});
        ask();
        change([&] { both.ours.unregisterObject(all[50]); });
        both.remove(all[50]);
        ask();
    }
    change([&] { both.ours.registerObjects(all); });
    both.add(all);
    ask();
    change([&] { both.ours.clear(); });
    both.clear();
    both.has_all();
    return asked;
}

void refuse_arguments() {
    for (Structure structure : {Structure::plain, Structure::sap}) {
        try {
            FclManager<double> manager(structure);
            expect(false, "a structure that may be spent is refused", 0);
        } catch (const FclRefused& refused) {
            expect(refused.status() == Status::argument && refused.what()[0] != 0, "as an argument", 0);
        }
    }
    for (double scale : {0.0, -1.0, std::numeric_limits<double>::quiet_NaN(), std::numeric_limits<double>::infinity()}) {
        try {
            FclManager<double> manager(Structure::tree, scale);
            expect(false, "a scale is above 0", 0);
        } catch (const FclRefused& refused) {
            expect(refused.status() == Status::argument, "as an argument", 0);
        }
    }
}

}  // namespace

int main() {
    constexpr Structure structures[] = {Structure::tree, Structure::grid, Structure::skin};
    refuse_arguments();
    for (Structure structure : structures) {
        for (unsigned seed = 1; seed <= 4; seed++) {
            play<double>(seed, structure, 300, 12, 60, 1, false);
            play<float>(seed, structure, 300, 12, 60, 1, false);
            play<double>(seed, structure, 60, 3, 60, 100, true);
            play<float>(seed, structure, 500, 200, 60, 0.01, true);
        }
        // Past the end of the range, where all boxes are cut to one corner of it, and across it.
        play<double>(5, structure, 200, 12, 20, 1, false, 40000);
        play<float>(5, structure, 200, 12, 20, 1, false, 40000);
        play<double>(6, structure, 200, 40, 20, 1, false, -32788);
        play<float>(6, structure, 200, 40, 20, 1, false, 32747);
        play<double>(7, structure, 200, 90000, 20, 1, false, -45000);
        play<float>(7, structure, 200, 90000, 20, 1, false, -45000);
        long requests = 1;
        for (long first = 0; first < requests; first++) requests = play_refused<double>(structure, first);
        expect(requests > 50, "requests were refused", requests);
    }
    ask_within<double>();
    ask_within<float>();
    ask_by_threads<double>();
    ask_by_threads<float>();
    play_many<double>(9000);
    play_many<float>(17000);
    expect(frames_ended == 0, "no question ends a frame", frames_ended);
    std::printf("rounds: %ld claims, %d failed\n", claims.load(), failures.load());
    return failures != 0;
}
