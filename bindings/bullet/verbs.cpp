// What a user of Bullet asks a broad phase over the library and gives it. There are regions, questions within questions, rays of all
// lengths with and without a box, and rays that callbacks shorten. There are also worlds far out, wrong boxes, and one proxy too many. What
// a question and a step must find is found by testing all boxes. btDbvtBroadphase stands beside, is told the same, and is asked the same.
#include "pungwelair_broadphase.hpp"
#include <BulletDynamics/btBulletDynamicsCommon.h>
#include <algorithm>
#include <cmath>
#include <cstdio>
#include <cstring>
#include <functional>
#include <limits>
#include <random>
#include <set>

namespace {

using pungwelair::BulletBroadphase;
using pungwelair::Status;
using pungwelair::Structure;

int failures;

void expect(bool is_so, const char* name, const char* what, int number = 0) {
    if (!is_so && ++failures <= 20) std::printf("%s, %d: not so: %s\n", name, number, what);
}

constexpr btScalar endless = std::numeric_limits<btScalar>::infinity(), no_number = std::numeric_limits<btScalar>::quiet_NaN();
const btVector3 point(0, 0, 0);

struct Crowd {
    std::mt19937 random{5};
    btScalar part(btScalar most) { return most * btScalar(random() % 65536) / 65536; }
    btVector3 place(btScalar room) { return btVector3(part(room), part(room), part(room)); }
    btVector3 around(btScalar room) { return place(2 * room) - btVector3(room, room, room); }
};

// A broad phase with boxes of one's own, no world around it, and dbvt beside it. What `others` has at a place is the same box there.
struct Boxes {
    BulletBroadphase& broadphase;
    btDbvtBroadphase theirs;
    std::vector<btBroadphaseProxy*> proxies, others;

    explicit Boxes(BulletBroadphase& broadphase) : broadphase(broadphase) {}
    ~Boxes() {
        while (!proxies.empty()) remove(proxies.size() - 1);
    }
    btBroadphaseProxy* add(const btVector3& low, const btVector3& high, int group = 1, void* object = nullptr) {
        proxies.push_back(broadphase.createProxy(low, high, 0, object, group, -1, nullptr));
        others.push_back(theirs.createProxy(low, high, 0, object, group, -1, nullptr));
        return proxies.back();
    }
    void move(std::size_t k, const btVector3& low, const btVector3& high) {
        broadphase.setAabb(proxies[k], low, high, nullptr);
        theirs.setAabb(others[k], low, high, nullptr);
    }
    void remove(std::size_t k) {
        broadphase.destroyProxy(proxies[k], nullptr);
        theirs.destroyProxy(others[k], nullptr);
        proxies.erase(proxies.begin() + long(k));
        others.erase(others.begin() + long(k));
    }

    // Ends a step, and tells how many pairs the cache has: all whose boxes meet, found by testing all, which dbvt has too unless a box is
    // a wrong one. Others only if a box is at the rim, or if rounding makes boxes touch.
    int step(const char* name, bool is_inside = true, double scale = 1) {
        broadphase.calculateOverlappingPairs(nullptr);
        theirs.calculateOverlappingPairs(nullptr);
        auto *cache = broadphase.getOverlappingPairCache(), *their_cache = theirs.getOverlappingPairCache();
        auto is_right = [](const btBroadphaseProxy* one) {
            const btVector3 &low = one->m_aabbMin, &high = one->m_aabbMax;
            return low.x() <= high.x() && low.y() <= high.y() && low.z() <= high.z();
        };
        for (std::size_t a = 0; a < proxies.size(); a++)
            for (std::size_t b = 0; b < a; b++) {
                auto *one = proxies[a], *other = proxies[b];
                if (!TestAabbAgainstAabb2(one->m_aabbMin, one->m_aabbMax, other->m_aabbMin, other->m_aabbMax)) continue;
                if (!cache->needsBroadphaseCollision(one, other)) continue;
                expect(cache->findPair(one, other) != nullptr, name, "a pair that meets is in the cache");
                if (is_right(others[a]) && is_right(others[b]))
                    expect(their_cache->findPair(others[a], others[b]) != nullptr, name, "a pair that meets is in that of dbvt");
            }
        btBroadphasePairArray& pairs = cache->getOverlappingPairArray();
        btVector3 grown = btVector3(1, 1, 1) * btScalar(2 / 65536.0 / scale);
        for (int k = 0; k < pairs.size() && is_inside; k++) {
            const auto *one = pairs[k].m_pProxy0, *other = pairs[k].m_pProxy1;
            bool touch = TestAabbAgainstAabb2(one->m_aabbMin - grown, one->m_aabbMax + grown, other->m_aabbMin, other->m_aabbMax);
            expect(touch, name, "a pair in the cache meets");
        }
        return cache->getNumOverlappingPairs();
    }

    // The bounds are those of the boxes, and lie in those that dbvt tells, whose boxes are enlarged: by no number if one is wrong.
    void expect_bounds(const char* name, bool are_right = true) {
        btVector3 low, high, least = proxies[0]->m_aabbMin, most = proxies[0]->m_aabbMax;
        for (auto* proxy : proxies) least.setMin(proxy->m_aabbMin), most.setMax(proxy->m_aabbMax);
        broadphase.getBroadphaseAabb(low, high);
        for (int axis = 0; axis < 3; axis++)
            expect(low[axis] == least[axis] && high[axis] == most[axis], name, "the bounds are those of the boxes", axis);
        if (!are_right) return;
        theirs.getBroadphaseAabb(low, high);
        for (int axis = 0; axis < 3; axis++)
            expect(low[axis] <= least[axis] && high[axis] >= most[axis], name, "which those of dbvt hold", axis);
    }
};

struct Found : btBroadphaseAabbCallback {
    std::multiset<int> ids;
    std::function<void(const btBroadphaseProxy*)> then;
    bool process(const btBroadphaseProxy* proxy) override {
        ids.insert(proxy->m_uniqueId);
        if (then) then(proxy);
        return true;
    }
};

// Called for boxes as Bullet's own callbacks are, with what those fill in.
struct Ray : btBroadphaseRayCallback {
    std::vector<const btBroadphaseProxy*> met;
    std::vector<btScalar> left;
    std::function<void(Ray&, const btBroadphaseProxy*)> then;
    Ray(const btVector3& from, const btVector3& to) {
        btVector3 way = to - from;
        if (way.length2() > 0) way.normalize();
        for (int axis = 0; axis < 3; axis++) {
            m_rayDirectionInverse[axis] = way[axis] == 0 ? btScalar(BT_LARGE_FLOAT) : 1 / way[axis];
            m_signs[axis] = m_rayDirectionInverse[axis] < 0;
        }
        m_lambda_max = way.dot(to - from);
    }
    bool process(const btBroadphaseProxy* proxy) override {
        met.push_back(proxy);
        left.push_back(m_lambda_max);
        if (then) then(*this, proxy);
        return true;
    }
};

// How far along its way, from 0 to 1, a box that is moved first meets another, grown by some; 2 if it never does.
double meets_at(const btVector3& from, const btVector3& to, const btVector3& low, const btVector3& high, const btBroadphaseProxy* proxy,
                double grown = 0) {
    long double enter = 0, leave = 1;
    for (int axis = 0; axis < 3; axis++) {
        long double start = from[axis], way = to[axis] - start;
        long double first = (long double)proxy->m_aabbMin[axis] - high[axis] - start - grown;
        long double last = (long double)proxy->m_aabbMax[axis] - low[axis] - start + grown;
        if (way == 0 && (first > 0 || last < 0)) return 2;
        if (way == 0) continue;
        enter = std::max(enter, std::min(first / way, last / way));
        leave = std::min(leave, std::max(first / way, last / way));
    }
    return enter <= leave ? double(enter) : 2;
}

// Of boxes that are called for in order each may be met before the one behind it, with what casts are wider.
void expect_order(const Ray& ray, const btVector3& from, const btVector3& to, const btVector3& low, const btVector3& high, double wider,
                  const char* name, int number) {
    for (std::size_t n = 1; n < ray.met.size(); n++) {
        double before = meets_at(from, to, low, high, ray.met[n - 1], wider), behind = meets_at(from, to, low, high, ray.met[n], -wider);
        expect(before <= behind + 1e-9, name, "boxes are called for in the order in which they are met", number);
    }
}

// Rays of one kind, in a world of one kind.
struct RayCase {
    const char* name;
    btScalar room, size;                         // of the boxes
    void (*ray)(Crowd&, btVector3& from, btVector3& to);
    btScalar swept;                              // half the box that is swept
    bool has_plane;                              // a plane without end stands among them, and a box beyond the range
    bool is_scaled;                              // far out, by origin and scale
};
const RayCase ray_cases[] = {
    {"short rays", 40, 2, [](Crowd& c, btVector3& a, btVector3& b) { a = c.place(40), b = a + c.around(10); }, 0, false, false},
    {"rays without length", 40, 8, [](Crowd& c, btVector3& a, btVector3& b) { a = b = c.place(40); }, 0, false, false},
    {"along an axis", 40, 3, [](Crowd& c, btVector3& a, btVector3& b) {
         a = c.place(40), b = a, b[int(c.random() % 3)] += c.part(200) - 100;
     }, 0, false, false},
    {"long rays", 4000, 200, [](Crowd& c, btVector3& a, btVector3& b) { a = c.around(10000), b = c.around(10000); }, 0, false, false},
    {"as long as the range", 4000, 400, [](Crowd& c, btVector3& a, btVector3& b) {
         a = c.around(4000), b = c.around(4000), a.setX(-32000), b.setX(32000);
     }, 0, false, false},
    {"from far out", 4000, 400, [](Crowd& c, btVector3& a, btVector3& b) {
         a = c.place(4000), b = c.place(4000), a.setY(100000);
     }, 0, false, false},
    {"through the range from end to end", 4000, 400, [](Crowd& c, btVector3& a, btVector3& b) {
         b = c.place(4000), a = b * 2 - c.around(1) - btVector3(0, 70000, 0), b += b - a;
     }, 0, false, false},
    {"outside of the range", 4000, 400, [](Crowd& c, btVector3& a, btVector3& b) {
         a = c.place(9000) + btVector3(50000, 0, 0), b = a + c.around(9000);
     }, 0, false, false},
    {"long rays through great boxes", 30000, 9000, [](Crowd& c, btVector3& a, btVector3& b) {
         a = c.place(30000), b = c.place(30000), a.setX(-32000), b.setX(32000);
     }, 0, false, false},
    {"from very far", 40, 8, [](Crowd& c, btVector3& a, btVector3& b) { a = c.around(1e12f), b = c.place(40); }, 0, false, false},
    {"from where doubles are coarse", 40, 8, [](Crowd& c, btVector3& a, btVector3& b) {
         a = c.around(1e15f), b = c.place(40);
     }, 0, false, false},
    {"over a plane, from far out", 4000, 400, [](Crowd& c, btVector3& a, btVector3& b) {
         a = c.place(4000), b = c.place(4000), a.setY(100000);
     }, 0, true, false},
    {"a box is swept", 40, 2, [](Crowd& c, btVector3& a, btVector3& b) { a = c.place(40), b = a + c.around(10); }, 1.5f, false, false},
    {"a box is swept far", 4000, 200, [](Crowd& c, btVector3& a, btVector3& b) {
         a = c.around(30000), b = c.around(30000);
     }, 30, false, false},
    {"a box as wide as the range", 4000, 200, [](Crowd& c, btVector3& a, btVector3& b) {
         a = c.place(4000), b = c.place(4000);
     }, 40000, false, false},
    {"in centimetres far out", 1600, 60, [](Crowd& c, btVector3& a, btVector3& b) {
         a = c.place(1600), b = c.place(1600);
     }, 0, false, true},
    {"swept in centimetres far out", 1600, 60, [](Crowd& c, btVector3& a, btVector3& b) {
         a = c.place(1600), b = c.place(1600);
     }, 20, false, true},
};

void cast(const RayCase& c, Structure structure) {
    BulletBroadphase::Options options;
    btVector3 away(0, 0, 0);
    if (c.is_scaled) options.scale = 0.01, options.origin = btVector3(40000, 0, 0), away = btVector3(41000, 0, 0);
    BulletBroadphase ours(structure, options);
    Boxes boxes(ours);
    Crowd crowd, cuts;
    for (int k = 0; k < 200; k++) {
        btVector3 low = crowd.place(c.room) + away;
        boxes.add(low, low + crowd.place(c.size));
    }
    if (c.has_plane) {
        boxes.add(btVector3(-1e18f, -1e18f, -1e18f), btVector3(1e18f, 0, 1e18f));
        boxes.add(btVector3(0, 60000, 0), btVector3(4000, 60010, 4000));
    }
    bool is_inside = !c.has_plane && c.room + c.size < 32000;
    boxes.step(c.name, is_inside, options.scale);
    boxes.expect_bounds(c.name);
    btVector3 high(c.swept, c.swept, c.swept), low = -high;
    int met = 0;
    for (int k = 0; k < 300; k++) {
        btVector3 from, to;
        c.ray(crowd, from, to);
        from += away, to += away;
        // Some end at a corner or pass one.
        const btVector3& corner = boxes.proxies[crowd.random() % 200]->m_aabbMax;
        if (k % 3 == 0) to = corner;
        if (k % 3 == 1 && from.length2() < 1e9f) to = corner + (corner - from) * 0.5f;
        // What casts are wider, in units of Bullet's, and what doubles round.
        double wider = 8 / 65536.0 / options.scale + (from.length() + to.length()) * 1e-13;
        Ray ray(from, to), short_ray(from, to);
        ours.rayTest(from, to, ray, low, high);
        std::set<const btBroadphaseProxy*> called(ray.met.begin(), ray.met.end());
        expect(called.size() == ray.met.size(), c.name, "a box is called for once", k);
        // Not if all boxes are tested: from very far, with a box that is swept and has no way in the range, or if some stand at its rim.
        bool is_in_order = from.length() < 1e9f && c.swept < 30000 && is_inside;
        if (is_in_order) expect_order(ray, from, to, low, high, wider, c.name, k);
        // dbvt tests by floats, so it is held to boxes that are met well inside, by rays from where floats are fine.
        Ray their_ray(from, to);
        boxes.theirs.rayTest(from, to, their_ray, low, high);
        std::set<const btBroadphaseProxy*> called_there(their_ray.met.begin(), their_ray.met.end());
        double inside = (from.length() + to.length()) * 1e-5;
        for (std::size_t n = 0; n < boxes.proxies.size() && from.length() < 1e6f; n++)
            if (meets_at(from, to, low, high, boxes.proxies[n], -inside) < 2)
                expect(called_there.count(boxes.others[n]) == 1, c.name, "dbvt calls for what is met", k);
        btBroadphaseProxy* nearest = nullptr;
        double least = 2;
        for (auto* proxy : boxes.proxies) {
            double at = meets_at(from, to, low, high, proxy);
            if (at < least) least = at, nearest = proxy;
            met += at < 2;
            if (at < 2) expect(called.count(proxy) == 1, c.name, "no box that is met is lost", k);
            else if (called.count(proxy)) expect(meets_at(from, to, low, high, proxy, wider) < 2, c.name, "no other is called for", k);
        }
        // The callback leaves the ray what Bullet's would: the way to what it met.
        double length = (to - from).length();
        short_ray.then = [&](Ray& it, const btBroadphaseProxy* proxy) {
            double at = meets_at(from, to, low, high, proxy);
            if (at < 2) it.m_lambda_max = std::min(it.m_lambda_max, btScalar(at * length));
        };
        ours.rayTest(from, to, short_ray, low, high);
        for (std::size_t n = 0; n < short_ray.met.size(); n++) {
            double at = meets_at(from, to, low, high, short_ray.met[n], wider);
            expect(at * length <= short_ray.left[n] * 1.001 + 0.01, c.name, "a ray that is shortened isn't called beyond its end", k);
        }
        // The callback shortens the ray at the first box, to somewhere behind it.
        Ray cut_ray(from, to);
        double first_at = nearest ? least : 0, cut_at = length * (first_at + (1 - first_at) * double(cuts.part(1)));
        cut_ray.then = [&](Ray& it, const btBroadphaseProxy*) { it.m_lambda_max = std::min(it.m_lambda_max, btScalar(cut_at)); };
        ours.rayTest(from, to, cut_ray, low, high);
        std::set<const btBroadphaseProxy*> left(cut_ray.met.begin(), cut_ray.met.end());
        expect(left.size() == cut_ray.met.size(), c.name, "a box is called for once by a ray that is cut", k);
        if (is_in_order) expect_order(cut_ray, from, to, low, high, wider, c.name, k);
        for (auto* proxy : ray.met)
            if (meets_at(from, to, low, high, proxy) * length < cut_at * 0.999 - 0.01)
                expect(left.count(proxy) == 1, c.name, "no box before the end of a ray that is cut is lost", k);
        bool is_found = !nearest || std::count(short_ray.met.begin(), short_ray.met.end(), nearest) == 1 ||
                        least * length > short_ray.m_lambda_max * 0.999 - 0.01;
        expect(is_found, c.name, "the first that is met is called for, however the ray is shortened", k);
    }
    expect(met > 40 || c.room < c.size || !std::strcmp(c.name, "outside of the range"), c.name, "rays met boxes", met);
}

void regions(Structure structure) {
    const char* name = "regions";
    BulletBroadphase ours(structure);
    Boxes boxes(ours);
    Crowd crowd;
    for (int k = 0; k < 300; k++) {
        btVector3 low = crowd.place(30);
        boxes.add(low, low + crowd.place(3), k % 3);
    }
    for (int k = 0; k < 100; k++) {
        btVector3 low = crowd.around(30), high = low + crowd.place(20);
        if (k % 7 == 0) low.setX(-1e9f), high.setX(1e9f);
        Found found, there;
        ours.aabbTest(low, high, found);
        boxes.theirs.aabbTest(low, high, there);
        std::multiset<int> all;
        for (auto* proxy : boxes.proxies)
            if (TestAabbAgainstAabb2(low, high, proxy->m_aabbMin, proxy->m_aabbMax)) all.insert(proxy->m_uniqueId);
        expect(found.ids == all, name, "a region finds the boxes that it meets, in whatever group", k);
        expect(std::includes(there.ids.begin(), there.ids.end(), all.begin(), all.end()), name, "which dbvt finds too", k);
        // Moves that no update has seen yet.
        for (std::size_t n = 0; n < 20; n++) {
            btVector3 by = crowd.around(5);
            boxes.move(n, boxes.proxies[n]->m_aabbMin + by, boxes.proxies[n]->m_aabbMax + by);
        }
        if (k % 10 == 9) boxes.step(name);
    }
    boxes.step(name);
    boxes.expect_bounds(name);
}

// A callback asks, and destroys and creates boxes.
void within(Structure structure) {
    const char* name = "within a question";
    BulletBroadphase broadphase(structure);
    Boxes boxes(broadphase);
    for (int k = 0; k < 6; k++) boxes.add(btVector3(btScalar(k) * 3 - 1, -1, -1), btVector3(btScalar(k) * 3 + 1, 1, 1));
    const btVector3 low(-1, -1, -1), high(20, 1, 1), from(-5, 0, 0), to(30, 0, 0);
    boxes.step(name);
    boxes.expect_bounds(name);
    auto ask_within = [&](btBroadphaseInterface& asked, const char* of_whom, std::multiset<int> all, std::multiset<int> last) {
        Found outer;
        outer.then = [&](const btBroadphaseProxy*) {
            Ray ray(from, to);
            ray.then = [&](Ray&, const btBroadphaseProxy*) {
                Found inner;
                asked.aabbTest(btVector3(8, -1, -1), high, inner);
                expect(inner.ids == last, of_whom, "a third question finds all");
            };
            asked.rayTest(from, to, ray, point, point);
            expect(ray.met.size() == 6, of_whom, "a second question finds all");
        };
        asked.aabbTest(low, high, outer);
        expect(outer.ids == all, of_whom, "the first question finds all");
    };
    auto ids = [](const std::vector<btBroadphaseProxy*>& proxies, std::size_t first) {
        std::multiset<int> out;
        for (std::size_t k = first; k < proxies.size(); k++) out.insert(proxies[k]->m_uniqueId);
        return out;
    };
    ask_within(broadphase, name, ids(boxes.proxies, 0), ids(boxes.proxies, 3));
    ask_within(boxes.theirs, "within a question of dbvt", ids(boxes.others, 0), ids(boxes.others, 3));

    // A ray that ends earlier, so that the next one asks for the first box alone.
    {
        Ray early(from, to);
        early.then = [](Ray& it, const btBroadphaseProxy*) { it.m_lambda_max = btScalar(17.5); };
        broadphase.rayTest(from, to, early, point, point);
        expect(early.met.size() == 5, name, "a ray of half the length doesn't meet the last box");
    }

    // The first that is called for destroys the next two, and others come, one of them into the way, which take their slots.
    Ray ray(from, to);
    ray.then = [&](Ray& it, const btBroadphaseProxy*) {
        if (it.met.size() > 1) return;
        for (int k = 0; k < 2; k++) boxes.remove(1);
        boxes.add(btVector3(60, 60, 60), btVector3(61, 61, 61));
        boxes.add(btVector3(4, -1, -1), btVector3(5, 1, 1));
    };
    broadphase.rayTest(from, to, ray, point, point);
    expect(ray.met.size() == 4, name, "none that is gone or came since is called for");
    boxes.step(name);
    boxes.remove(boxes.proxies.size() - 1);
    // As over the whole list, which a ray of this length takes.
    Ray far_ray(btVector3(-1e12f, 0, 0), to);
    far_ray.then = [&](Ray& it, const btBroadphaseProxy* proxy) {
        if (it.met.size() > 1) return;
        auto is_other = [&](auto* one) { return one != proxy && one->m_aabbMin.x() < 50; };
        auto other = std::find_if(boxes.proxies.begin(), boxes.proxies.end(), is_other);
        boxes.remove(std::size_t(other - boxes.proxies.begin()));
    };
    broadphase.rayTest(btVector3(-1e12f, 0, 0), to, far_ray, point, point);
    expect(far_ray.met.size() >= 3 && boxes.proxies.size() == 4, name, "a box that goes costs no other its call");
    boxes.step(name);
    boxes.expect_bounds(name);
}

// A row of boxes one behind the other, and rays that end at the first. The callback hears of few, and of the one that dbvt finds nearest.
void wall(Structure structure) {
    const char* name = "a wall of 500 boxes";
    BulletBroadphase ours(structure);
    Boxes boxes(ours);
    for (int k = 0; k < 500; k++) boxes.add(btVector3(btScalar(k * 2), -50, -50), btVector3(btScalar(k * 2 + 1), 50, 50));
    boxes.step(name);
    boxes.expect_bounds(name);
    const btVector3 ways[][2] = {{btVector3(-9, 0, 0), btVector3(1200, 0, 0)}, {btVector3(1200, 3, 1), btVector3(-9, 0, 0)},
                                 {btVector3(-9, -40, 7), btVector3(1200, 40, 9)}, {btVector3(501.5f, 0, 0), btVector3(-2000, 1, 2)},
                                 {btVector3(400.5f, 0, 0), btVector3(900, 0, 3)}, {btVector3(-90000, 0, 0), btVector3(90000, 0, 0)}};
    for (const auto& way : ways) {
        auto closest = [&](btBroadphaseInterface& asked, const std::vector<btBroadphaseProxy*>& proxies, std::size_t& calls) {
            Ray ray(way[0], way[1]);
            const btBroadphaseProxy* nearest = nullptr;
            double length = (way[1] - way[0]).length(), least = 2;
            ray.then = [&](Ray& it, const btBroadphaseProxy* proxy) {
                double at = meets_at(way[0], way[1], point, point, proxy);
                if (at < least) least = at, nearest = proxy, it.m_lambda_max = btScalar(at * length);
            };
            asked.rayTest(way[0], way[1], ray, point, point);
            calls = ray.met.size();
            return std::find(proxies.begin(), proxies.end(), nearest) - proxies.begin();
        };
        std::size_t calls, calls_there;
        auto hit = closest(ours, boxes.proxies, calls), hit_there = closest(boxes.theirs, boxes.others, calls_there);
        expect(hit == hit_there && hit < 500, name, "the nearest is that of dbvt", int(hit));
        expect(calls <= 6 && calls_there > 100, name, "few are called for", int(calls));
    }
}

// Boxes far out: by origin and scale they have the pairs that meet and no other; at the rim no pair is lost.
void far_out(Structure structure) {
    struct Place {
        const char* name;
        double scale;
        btVector3 origin, at;
        bool is_inside;
    };
    const Place places[] = {{"within the range", 1, point, btVector3(30000, -30000, 0), true},
                            {"in centimetres", 0.01, btVector3(10000, 0, 0), btVector3(40000, 0, 0), true},
                            {"far from the origin", 1, btVector3(1e6f, 0, -1e6f), btVector3(1e6f, 0, -1e6f), true},
                            {"in hundredths of a millimetre", 1000, btVector3(0, 5, 0), btVector3(0, 5, 0), true},
                            {"beyond one side", 1, point, btVector3(40000, 0, 0), false},
                            {"beyond three sides", 1, point, btVector3(40000, -50000, 60000), false}};
    for (const Place& place : places) {
        BulletBroadphase::Options options;
        options.scale = place.scale;
        options.origin = place.origin;
        BulletBroadphase broadphase(structure, options);
        Boxes boxes(broadphase);
        Crowd crowd;
        for (int k = 0; k < 200; k++) {
            btVector3 low = crowd.place(16) + place.at;
            boxes.add(low, low + btVector3(2, 2, 2));
        }
        expect(boxes.step(place.name, place.is_inside, place.scale) > 100, place.name, "pairs meet");
        for (std::size_t k = 0; k < 100; k++) {
            btVector3 by = crowd.around(2);
            boxes.move(k, boxes.proxies[k]->m_aabbMin + by, boxes.proxies[k]->m_aabbMax + by);
        }
        expect(boxes.step(place.name, place.is_inside, place.scale) > 100, place.name, "pairs meet after moves");
        boxes.expect_bounds(place.name);
    }
}

// Boxes that no shape has: each meets a small box at 0.5, by the pair cache and by questions, and nothing ends the program.
void wrong_boxes(Structure structure) {
    struct Wrong {
        const char* name;
        btVector3 low, high;
        bool is_found;  // by a question that tests Bullet's own numbers
    };
    const Wrong wrongs[] = {{"inverted", btVector3(1, 1, 1), btVector3(0, 0, 0), true},
                            {"inverted on an axis", btVector3(0, 1, 0), btVector3(1, 0, 1), true},
                            {"endless", btVector3(-endless, -endless, -endless), btVector3(endless, endless, endless), true},
                            {"endless and inverted", btVector3(endless, 0, 0), btVector3(-endless, 1, 1), true},
                            {"the greatest numbers", btVector3(-BT_LARGE_FLOAT, -3e38f, 0), btVector3(BT_LARGE_FLOAT, 3e38f, 1), true},
                            {"no number", btVector3(no_number, no_number, no_number), btVector3(no_number, no_number, no_number), false},
                            {"no number on a side", btVector3(0, no_number, 0), btVector3(1, 1, 1), false}};
    for (const Wrong& wrong : wrongs) {
        BulletBroadphase broadphase(structure);
        Boxes boxes(broadphase);
        boxes.add(btVector3(0.4f, 0.4f, 0.4f), btVector3(0.6f, 0.6f, 0.6f));
        for (int k = 0; k < 2; k++) {
            // Once as it comes, and once moved there.
            if (k == 0) boxes.add(wrong.low, wrong.high);
            else boxes.add(btVector3(9, 9, 9), btVector3(10, 10, 10)), boxes.move(2, wrong.low, wrong.high);
            boxes.step(wrong.name, false);
            if (wrong.is_found) boxes.expect_bounds(wrong.name, false);
            auto* pair = broadphase.getOverlappingPairCache()->findPair(boxes.proxies[0], boxes.proxies.back());
            expect(pair != nullptr, wrong.name, "it is a pair", k);
            Found found;
            broadphase.aabbTest(btVector3(0.45f, 0.45f, 0.45f), btVector3(0.5f, 0.5f, 0.5f), found);
            expect(!wrong.is_found || found.ids.size() == boxes.proxies.size(), wrong.name, "a question finds it", k);
            Found there;
            boxes.theirs.aabbTest(btVector3(0.45f, 0.45f, 0.45f), btVector3(0.5f, 0.5f, 0.5f), there);
            expect(!wrong.is_found || found.ids.size() >= there.ids.size(), wrong.name, "as many as dbvt finds", k);
            Ray ray(btVector3(0.5f, 0.5f, -9), btVector3(0.5f, 0.5f, 9));
            broadphase.rayTest(btVector3(0.5f, 0.5f, -9), btVector3(0.5f, 0.5f, 9), ray, point, point);
            expect(!wrong.is_found || ray.met.size() == boxes.proxies.size(), wrong.name, "a ray finds it", k);
        }
        Found none;
        broadphase.aabbTest(btVector3(1, 1, 1), point, none);
        broadphase.aabbTest(btVector3(no_number, 0, 0), btVector3(1, no_number, 1), none);
        expect(wrong.is_found ? none.ids.empty() || none.ids.size() <= 3 : true, wrong.name, "a wrong region ends nothing");
        const btVector3 ends[] = {wrong.low, wrong.high, point};
        for (const btVector3& from : ends)
            for (const btVector3& to : ends) {
                Ray ray(from, to);
                broadphase.rayTest(from, to, ray, point, point);
                broadphase.rayTest(point, to, ray, from, to);
            }
    }
    BulletBroadphase broadphase(structure);
    Boxes boxes(broadphase);
    for (int k = 0; k < 5; k++) boxes.add(point, btVector3(1, 1, 1));
    Found none;
    broadphase.aabbTest(btVector3(1, 1, 1), point, none);
    expect(none.ids.empty(), "an inverted region", "it finds nothing");
}

void too_many() {
    const char* name = "one too many";
    std::vector<std::pair<Status, void*>> refused;
    BulletBroadphase::Options options;
    options.has_collision_objects = false;
    options.refused = [&](Status status, void* object) { refused.push_back({status, object}); };
    BulletBroadphase told(options), untold;
    int object = 0;
    for (auto* broadphase : {&told, &untold}) {
        Boxes boxes(*broadphase);
        for (int k = 0; k < int(PW_SLOTS); k++) {
            btVector3 low(btScalar(k % 90) * 3, btScalar(k / 90) * 3, 0);
            boxes.add(low, low + btVector3(1, 1, 1));
        }
        expect(boxes.step(name) == 0 && boxes.proxies.back(), name, "as many as there are slots");
        auto* none = broadphase->createProxy(point, btVector3(1, 1, 1), 0, broadphase == &told ? &object : nullptr, 1, -1, nullptr);
        expect(!none, name, "its proxy is null");
        broadphase->setAabb(none, point, btVector3(1, 1, 1), nullptr);
        btVector3 low, high;
        broadphase->getAabb(none, low, high);
        broadphase->destroyProxy(none, nullptr);
        expect(boxes.step(name) == 0, name, "and the others are as before");
        boxes.remove(0);
        expect(boxes.add(point, btVector3(4, 1, 1)) && boxes.step(name) == 1, name, "there is room again if one goes");
    }
    bool is_told = refused.size() == 1 && refused[0].first == Status::full && refused[0].second == &object;
    expect(is_told, name, "the user is told, with the object");

    // A body whose proxy is null is one that collides with nothing, in a world of Bullet's.
    btDefaultCollisionConfiguration configuration;
    btCollisionDispatcher dispatcher{&configuration};
    BulletBroadphase broadphase(Structure::tree);
    btCollisionWorld world(&dispatcher, &broadphase, &configuration);
    btSphereShape ball(1);
    std::vector<std::unique_ptr<btCollisionObject>> balls;
    for (int k = 0; k < int(PW_SLOTS) + 3; k++) {
        balls.push_back(std::make_unique<btCollisionObject>());
        balls.back()->setCollisionShape(&ball);
        balls.back()->getWorldTransform().setOrigin(btVector3(btScalar(k) * 3, 0, 0));
        world.addCollisionObject(balls.back().get());
    }
    world.performDiscreteCollisionDetection();
    btCollisionWorld::ClosestRayResultCallback hit(btVector3(0, 9, 0), btVector3(0, -9, 0));
    world.rayTest(hit.m_rayFromWorld, hit.m_rayToWorld, hit);
    expect(hit.hasHit() && !balls.back()->getBroadphaseHandle(), name, "a world goes on without it");
    for (auto& one : balls) world.removeCollisionObject(one.get());
}

// The binding rounds as the library does, whose rounding is proved.
void rounding() {
    const char* name = "rounding";
    std::mt19937_64 random(11);
    const double ends[] = {-32768, std::nextafter(-32768.0, 0), -0.0, 0, 5e-324, -5e-324, 1 / 65536.0, std::nextafter(32767.0, 0), 32767};
    for (int k = 0; k < 300000; k++) {
        double side[2];
        for (double& at : side) {
            int kind = int(random() % 4);
            double part = double(random() >> 11) / 9007199254740992.0;
            double whole = std::floor(part * 65535 - 32768);
            at = kind == 0 ? ends[random() % 9]
                : kind == 1 ? part * 65535 - 32768
                : kind == 2 ? whole + double(int(random() % 65536)) / 65536
                : std::nextafter(whole, random() % 2 ? 1e9 : -1e9);
            at = std::clamp(at, -32768.0, 32767.0);
        }
        if (side[0] > side[1]) std::swap(side[0], side[1]);
        double low[3] = {side[0], side[0], side[0]}, high[3] = {side[1], side[1], side[1]};
        pw_box box{};
        expect(pw_box_around_double(low, high, &box) == PW_OK, name, "the library takes the sides", k);
        bool alike = pungwelair::raw_floor(side[0] * 65536) == box.lo.x && pungwelair::raw_ceiling(side[1] * 65536) == box.hi.z;
        expect(alike, name, "the binding rounds as the library", k);
    }
}

}  // namespace

int main() {
    for (auto structure : {Structure::plain, Structure::sap, Structure::tree, Structure::grid, Structure::skin}) {
        for (const RayCase& c : ray_cases) cast(c, structure);
        regions(structure);
        within(structure);
        wall(structure);
        far_out(structure);
        wrong_boxes(structure);
    }
    too_many();
    rounding();
    std::printf("verbs of Bullet: %d failed\n", failures);
    return failures != 0;
}
