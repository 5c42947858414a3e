// Bullet's btBroadphaseInterface over a world of this library: for a btCollisionWorld or btDiscreteDynamicsWorld in place of
// btDbvtBroadphase. Bullet's pair cache is fed by the changes of each update alone: a pair that began comes in, one that is over goes out.
//
// Bullet's boxes are moved by an origin, scaled, rounded outward to 1/65,536 and cut to -32,768 .. 32,767, so that boxes which meet
// always have boxes here that meet. A plane or a terrain without end may stand in the world. What lies beyond the range is kept at its
// rim. It loses no pair, but all boxes beyond one side meet there. So choose origin and scale such that the bodies stand inside: a world
// in centimetres with a scale of 0.01 reaches 327 km. A ray that leaves the range while boxes stand at the rim tests each box.
//
// Groups and masks are Bullet's, as they stand in each proxy, and a filter callback of the pair cache, or a cache of the user's, decides in
// place of them. What is written there, or taken out of the cache, is seen by the next calculateOverlappingPairs: a pair that may no longer
// goes out, and one that meets and may comes in. At most 8,192 proxies live at once. What can't be kept is told to `Options::refused`, and
// createProxy gives a null proxy for it, which all calls here take. If C++'s own heap refuses, std::bad_alloc leaves the call, the proxies
// are those that were there before, and the call may be made again. destroyProxy wants no memory.
//
// rayTest and aabbTest may be called by several threads at once while nothing else is, as btDiscreteDynamicsWorldMt does: they take turns
// in the library, and callbacks run side by side. All other calls are for one thread, as Bullet makes them.
#ifndef PUNGWELAIR_BROADPHASE_HPP
#define PUNGWELAIR_BROADPHASE_HPP

#include "bullet_coordinates.hpp"
#include "bullet_proxy.hpp"
#include <BulletCollision/BroadphaseCollision/btBroadphaseInterface.h>
#include <BulletCollision/BroadphaseCollision/btOverlappingPairCache.h>
#include <BulletCollision/CollisionDispatch/btCollisionObject.h>
#include <algorithm>
#include <atomic>
#include <cstring>
#include <functional>
#include <memory>
#include <mutex>
#include <unordered_set>
#include <utility>
#include <vector>

namespace pungwelair {

class BulletBroadphase : public btBroadphaseInterface {
public:
    struct Options {
        // A place of Bullet's world is (place - origin) * scale here, with a scale above 0.
        btVector3 origin{0, 0, 0};
        double scale = 1;
        // Whether client objects are btCollisionObjects, as those of a btCollisionWorld are: then ghost objects have their pairs at once.
        bool has_collision_objects = true;
        // A pair cache of the user's, which outlives this, or null for one of its own.
        btOverlappingPairCache* cache = nullptr;
        // Told why something couldn't be kept, and the client object of a proxy that wasn't made (else null).
        std::function<void(Status, void*)> refused;
    };

    // Over skins if no structure is named: most bodies of a simulation move by little in each step.
    explicit BulletBroadphase(Structure structure = Structure::skin) : BulletBroadphase(structure, Options()) {}
    explicit BulletBroadphase(Options options) : BulletBroadphase(Structure::skin, std::move(options)) {}
    BulletBroadphase(Structure structure, Options given)
        : structure(structure), options(std::move(given)), coordinates(options.origin, options.scale),
          own(options.cache ? nullptr : new Cache), cache(own ? own.get() : options.cache), is_open(!own) {
        if (!renew()) refuse(Status::no_memory);
        is_stale = false;
    }

    btBroadphaseProxy* createProxy(const btVector3& low, const btVector3& high, int, void* object, int group, int mask,
                                   btDispatcher* dispatcher) override {
        auto made = std::make_unique<Proxy>(low, high, object, group, mask);
        Proxy* proxy = made.get();
        make_room();
        proxy->m_uniqueId = ++last_id;
        // Moves that wait may go on waiting, if there is a world at all.
        Status status = flush();
        if (!is_lost) status = put(*proxy);
        if (is_lost && renew()) status = put(*proxy);
        if (status != Status::ok) return refuse(status, object), nullptr;
        proxy->place = proxies.size();
        proxies.push_back({std::move(made), proxy->filter()});
        // Nobody has it yet if its pairs with ghosts find no room.
        struct Undone {
            BulletBroadphase& broadphase;
            Proxy* proxy;
            btDispatcher* dispatcher;
            ~Undone() { broadphase.destroyProxy(proxy, dispatcher); }
        } undone{*this, proxy, dispatcher};
        pair_with_ghosts(*proxy);
        proxy->is_ghost = is_ghost(object);
        if (proxy->is_ghost) ghosts.push_back(proxy), pair_at_once(*proxy);
        undone.proxy = nullptr;
        return proxy;
    }

    void destroyProxy(btBroadphaseProxy* given, btDispatcher* dispatcher) override {
        if (!given) return;
        auto& proxy = *static_cast<Proxy*>(given);
        if (flush() != Status::ok) waiting.erase(std::remove(waiting.begin(), waiting.end(), &proxy), waiting.end());
        ghosts.erase(std::remove(ghosts.begin(), ghosts.end(), &proxy), ghosts.end());
        if (by_slot[proxy.handle.slot] == &proxy) by_slot[proxy.handle.slot] = nullptr;
        // Without a mark the library wants no memory for it, and a world that is lost is opened anew without it.
        static_cast<void>(world.remove(proxy.handle));
        bool was_settled = state_of_cache() == settled;
        cache->removeOverlappingPairsContainingProxy(given, dispatcher);
        if (was_settled) settled = state_of_cache();
        at_rim -= proxy.is_at_rim;
        std::size_t place = proxy.place;
        proxies.back().proxy->place = place;
        std::swap(proxies[place], proxies.back());
        proxies.pop_back();
        is_changed = true;
    }

    // The box goes to the library with others, at the next question or update. One that stays where it was is no move, except of a
    // ghost, to which others may have come.
    void setAabb(btBroadphaseProxy* given, const btVector3& low, const btVector3& high, btDispatcher*) override {
        if (!given) return;
        auto& proxy = *static_cast<Proxy*>(given);
        if (!proxy.stands_at(low, high)) return move(proxy, low, high);
        if (!ghosts.empty() && proxy.is_ghost && (is_changed || !waiting.empty())) return move(proxy, low, high);
    }

    void getAabb(btBroadphaseProxy* proxy, btVector3& low, btVector3& high) const override {
        if (!proxy) return;
        low = proxy->m_aabbMin;
        high = proxy->m_aabbMax;
    }

    void calculateOverlappingPairs(btDispatcher* dispatcher) override {
        Status status = flush();
        if (status != Status::ok) return refuse(status);
        heed_filters();
        bool is_dropped = state_of_cache() != settled;
        // What an update told is read in one go, or is made up for by a look at all pairs.
        if (is_untold) is_stale = true;
        if (is_changed && !update(dispatcher)) return;
        drop_early_pairs(dispatcher);
        // A world that was opened anew tells no pair that is over, and a cache that removes when it is sorted didn't when it was told.
        if (is_stale || cache->hasDeferredRemoval())
            drop_pairs(dispatcher, [](Proxy& a, Proxy& b) { return !a.is_paired_with(b); });
        if (is_refiltered) drop_pairs(dispatcher, [this](Proxy& a, Proxy& b) { return !cache->needsBroadphaseCollision(&a, &b); });
        // Pairs that the user took out come again while their boxes meet.
        if (is_dropped || is_refiltered || is_untold) offer_all_pairs();
        is_stale = is_refiltered = is_untold = false;
        settled = state_of_cache();
    }

    // The box that Bullet sweeps, or a point, moved from `from` to `to`: a cast in raw units, some raw units wider than all that is
    // rounded on the way. The callback is called in the order in which boxes are met, and may shorten the ray by `m_lambda_max`. Mostly it
    // does so at the first box. So the library is asked for that one alone, and then for what is left of the way.
    void rayTest(const btVector3& from, const btVector3& to, btBroadphaseRayCallback& callback, const btVector3& low,
                 const btVector3& high) override {
        // A long way is cast by parts, and a box may be met by two of them.
        std::unordered_set<int> called;
        BulletCoordinates::Way way = coordinates.way(from, to, low, high);
        // The callback may make proxies, and the library is asked again behind it.
        const int newest = last_id;
        bool is_heard = false;
        auto each = [&](Proxy& proxy) {
            if (proxy.m_uniqueId > newest || !may_meet(from, to, low, high, proxy) || !is_reached(from, low, high, proxy, callback)) return;
            if (way.parts > 1 && !called.insert(proxy.m_uniqueId).second) return;
            is_heard = true;
            callback.process(&proxy);
        };
        auto is_in_casts = [&] { return way.is_whole && (at_rim == 0 || !BulletCoordinates::is_cut(way)); };
        if (!is_ready(is_in_casts)) return ask_all(each);
        const btScalar whole = callback.m_lambda_max;
        auto left = [&] { return callback.m_lambda_max < whole ? part_that_is_left(from, to, callback) : 1; };
        for (int part = 0; part < way.parts && coordinates.enters(way, part) <= left(); part++) {
            auto cast = [&] { return coordinates.cast(way, part, low, high, left()); };
            int first = 0;
            if (rays_end_early.load(std::memory_order_relaxed)) {
                bool is_free = false;
                auto ask_for_first = [&](std::vector<pw_handle>& found) {
                    auto hit = world.try_cast_first(cast());
                    is_free = hit && !*hit;
                    if (!hit || is_free) return Count{Status::ok, 0};
                    found[0] = (**hit).handle;
                    return Count{Status::ok, 1};
                };
                ask(ask_for_first, [&](Proxy& proxy) {
                    first = proxy.m_uniqueId;
                    each(proxy);
                });
                if (is_free) continue;
            }
            ask([&](std::vector<pw_handle>& found) { return world.cast_hits(cast(), found); }, [&](Proxy& proxy) {
                if (proxy.m_uniqueId != first) each(proxy);
            });
        }
        if (is_heard) rays_end_early.store(callback.m_lambda_max < whole, std::memory_order_relaxed);
    }

    void aabbTest(const btVector3& low, const btVector3& high, btBroadphaseAabbCallback& callback) override {
        if (low.x() > high.x() || low.y() > high.y() || low.z() > high.z()) return;
        find(low, high, [&](Proxy& proxy) { callback.process(&proxy); });
    }

    btOverlappingPairCache* getOverlappingPairCache() override { return cache; }
    const btOverlappingPairCache* getOverlappingPairCache() const override { return cache; }

    // The bounds of all boxes, and a point at the origin if there is none.
    void getBroadphaseAabb(btVector3& low, btVector3& high) const override {
        low.setValue(0, 0, 0);
        high.setValue(0, 0, 0);
        for (std::size_t k = 0; k < proxies.size(); k++) {
            const Proxy& proxy = *proxies[k].proxy;
            if (k == 0) low = proxy.m_aabbMin, high = proxy.m_aabbMax;
            low.setMin(proxy.m_aabbMin);
            high.setMax(proxy.m_aabbMax);
        }
    }

    void printStats() override {}

private:
    using Proxy = BulletProxy;

    // A proxy, with the filter that was found in it last. Users write there at any time, so each step looks at all of them.
    struct Kept {
        std::unique_ptr<Proxy> proxy;
        uint64_t filter;
    };

    using Handles = std::pair<pw_handle, pw_handle>;

    // Counts the pairs that went, so that one which the user took out is seen also if he put another one in.
    struct Cache final : btHashedOverlappingPairCache {
        int gone = 0;
        void* removeOverlappingPair(btBroadphaseProxy* a, btBroadphaseProxy* b, btDispatcher* dispatcher) override {
            int before = getNumOverlappingPairs();
            void* removed = btHashedOverlappingPairCache::removeOverlappingPair(a, b, dispatcher);
            gone += before - getNumOverlappingPairs();
            return removed;
        }
    };

    Structure structure;
    Options options;
    BulletCoordinates coordinates;
    std::unique_ptr<Cache> own;
    btOverlappingPairCache* cache;
    btOverlapFilterCallback* filter = nullptr;
    World world;
    std::vector<Kept> proxies;
    std::vector<Proxy*> by_slot = std::vector<Proxy*>(PW_SLOTS);
    std::vector<Proxy*> waiting, ghosts;
    std::vector<pw_handle> moved;
    std::vector<pw_box> moved_to;
    std::vector<pw_told> changes;
    std::vector<pw_pair> pairs;
    // Pairs of ghosts that came in before an update told them, and pairs of the frame that the cache didn't take.
    std::vector<Handles> early, turned_down;
    // Held while a question hands moves on, asks the library, and takes or leaves a room.
    std::mutex mutex;
    // Rooms for answers that no question has. Each has one of its own, since callbacks ask, and other threads.
    std::vector<std::vector<pw_handle>> rooms;
    std::size_t rooms_made = 0, asking = 0, at_rim = 0, pairs_of_frame = 0;
    int last_id = 0, settled = 0;
    bool is_open;                // the cache's own filter decides, so masks are open in the library
    bool is_lost = true;         // there is no world to ask, since memory ran out
    bool is_changed = true;      // since the last update
    bool is_stale = false;       // the cache may have pairs that an earlier world told
    bool is_refiltered = false;  // the cache may have pairs that its filter refuses now
    bool is_untold = false;      // the cache may not have what the last update told
    // Whether the last callback shortened its ray. Bullet's own don't, and asking for the first alone costs them.
    std::atomic<bool> rays_end_early{true};

    void refuse(Status status, void* object = nullptr) {
        if (options.refused) options.refused(status, object);
    }

    // It is another one if a pair was taken out, of a cache of the user's only if there are more or fewer.
    int state_of_cache() const { return own ? own->gone : cache->getNumOverlappingPairs(); }

    // Before a proxy comes, so that no list of proxies grows later. They grow by half, as each comes by itself.
    void make_room() {
        std::size_t least = std::min({proxies.capacity(), waiting.capacity(), ghosts.capacity(), moved.capacity(), moved_to.capacity()});
        if (proxies.size() < least) return;
        std::size_t room = proxies.size() + proxies.size() / 2 + 16;
        proxies.reserve(room);
        waiting.reserve(room);
        ghosts.reserve(room);
        moved.reserve(room);
        moved_to.reserve(room);
    }

    static bool are_same(const pw_box& a, const pw_box& b) { return std::memcmp(&a, &b, sizeof a) == 0; }

    bool is_ghost(void* object) const {
        return options.has_collision_objects && object &&
               static_cast<btCollisionObject*>(object)->getInternalType() == btCollisionObject::CO_GHOST_OBJECT;
    }

    // The proxy of a handle, and null if it was destroyed since.
    Proxy* proxy_of(pw_handle handle) const {
        Proxy* proxy = by_slot[handle.slot];
        return proxy && proxy->handle.generation == handle.generation ? proxy : nullptr;
    }

    pw_masks masks_of(const Proxy& proxy) const { return is_open ? pw_masks{1, ~0u} : proxy.masks(); }

    void move(Proxy& proxy, const btVector3& low, const btVector3& high) {
        proxy.set_box(low, high);
        if (!proxy.waits) waiting.push_back(&proxy);
        proxy.waits = true;
        if (proxy.is_ghost) pair_at_once(proxy);
    }

    void take_place(Proxy& proxy, const BulletCoordinates::Placed& placed) {
        proxy.has = placed.box;
        at_rim += placed.is_at_rim;
        at_rim -= proxy.is_at_rim;
        proxy.is_at_rim = placed.is_at_rim;
    }

    Status put(Proxy& proxy) {
        BulletCoordinates::Placed placed = coordinates.box_around(proxy.m_aabbMin, proxy.m_aabbMax);
        pw_masks masks = masks_of(proxy);
        Status status = world.add({&placed.box, 1}, {masks, {0, 0}}, {&proxy.handle, 1}).status;
        if (status != Status::ok) return is_lost |= is_spent(), status;
        proxy.told = masks;
        by_slot[proxy.handle.slot] = &proxy;
        take_place(proxy, placed);
        is_changed = true;
        return status;
    }

    bool is_spent() {
        auto info = world.info();
        return !info || info->spent != 0;
    }

    // Opens a world anew and adds all boxes as they stand, if memory ran out in a change of the one before. Not within a question, whose
    // handles are of the world that it asked.
    bool renew() {
        if (asking > 0) return false;
        static_cast<void>(world.close());
        std::fill(by_slot.begin(), by_slot.end(), nullptr);
        early.clear();
        turned_down.clear();
        is_stale = is_changed = true;
        is_lost = world.open(structure) != Status::ok;
        for (std::size_t k = 0; k < proxies.size() && !is_lost; k++) is_lost = put(*proxies[k].proxy) != Status::ok;
        if (is_lost) return false;
        for (Proxy* proxy : waiting) proxy->waits = false;
        waiting.clear();
        return true;
    }

    // Hands the moves on that wait. If it isn't ok, memory ran out: there is no world, or some go on waiting.
    Status flush() {
        if (is_lost) return renew() ? Status::ok : Status::no_memory;
        if (waiting.empty()) return Status::ok;
        moved.clear();
        moved_to.clear();
        for (Proxy* proxy : waiting) {
            BulletCoordinates::Placed placed = coordinates.box_around(proxy->m_aabbMin, proxy->m_aabbMax);
            proxy->waits = false;
            // A body that trembles at rest often has the same box here.
            if (are_same(placed.box, proxy->has)) continue;
            moved.push_back(proxy->handle);
            moved_to.push_back(placed.box);
            take_place(*proxy, placed);
        }
        Status status = moved.empty() ? Status::ok : world.move(moved, moved_to).status;
        is_changed |= !moved.empty();
        if (status == Status::ok) return waiting.clear(), status;
        for (Proxy* proxy : waiting) {
            proxy->waits = true;
            if (auto live = world.get(proxy->handle)) proxy->has = live->body;
        }
        is_lost = is_spent();
        return is_lost && renew() ? Status::ok : status;
    }

    // Sees what was written into proxies, and what filter the cache has.
    void heed_filters() {
        if (cache->getOverlapFilterCallback() != filter) heed_callback();
        for (Kept& kept : proxies)
            if (kept.proxy->filter() != kept.filter) heed(kept);
    }

    void heed(Kept& kept) {
        Proxy& proxy = *kept.proxy;
        pw_masks masks = masks_of(proxy);
        if (masks.is != proxy.told.is || masks.sees != proxy.told.sees) {
            Status status = world.mask(proxy.handle, masks);
            if (status != Status::ok) return refuse(status);
            proxy.told = masks;
        }
        kept.filter = proxy.filter();
        is_changed = true;
        is_refiltered |= is_open;
    }

    void heed_callback() {
        filter = cache->getOverlapFilterCallback();
        is_open = filter || !own;
        for (Kept& kept : proxies) heed(kept);
    }

    bool update(btDispatcher* dispatcher) {
        Frame frame = world.update();
        if (frame.status != Status::ok) return refuse(frame.status), false;
        is_changed = false;
        pairs_of_frame = frame.pairs;
        bool was_untold = std::exchange(is_untold, true);
        changes.resize(frame.changes);
        turned_down.reserve(turned_down.size() + frame.changes);
        static_cast<void>(world.changes(0, changes));
        offer_again();
        for (const pw_told& told : changes) {
            Proxy *a = proxy_of(told.pair.a), *b = proxy_of(told.pair.b);
            // Bullet has taken the pairs of a destroyed proxy out already.
            if (!a || !b) continue;
            if (told.event == PW_BEGIN) offer(*a, *b);
            else cache->removeOverlappingPair(a, b, dispatcher);
        }
        is_untold = was_untold;
        return true;
    }

    bool is_taken(Proxy& a, Proxy& b) { return cache->findPair(&a, &b) || cache->addOverlappingPair(&a, &b); }

    void offer(Proxy& a, Proxy& b) {
        if (!is_taken(a, b)) turned_down.push_back({a.handle, b.handle});
    }

    // A filter of the user's may take later what it refused, so it is asked again when something has changed.
    void offer_again() {
        std::size_t left = 0;
        for (const Handles& pair : turned_down) {
            Proxy *a = proxy_of(pair.first), *b = proxy_of(pair.second);
            if (a && b && a->is_paired_with(*b) && !is_taken(*a, *b)) turned_down[left++] = pair;
        }
        turned_down.resize(left);
    }

    void offer_all_pairs() {
        pairs.resize(pairs_of_frame);
        turned_down.reserve(pairs.size());
        turned_down.clear();
        static_cast<void>(world.pairs(0, pairs));
        for (const pw_pair& pair : pairs) {
            Proxy *a = proxy_of(pair.a), *b = proxy_of(pair.b);
            if (a && b) offer(*a, *b);
        }
    }

    // Calls for each proxy whose box meets a region.
    template <class Each>
    void find(const btVector3& low, const btVector3& high, Each&& each) {
        auto each_that_meets = [&](Proxy& proxy) {
            if (proxy.meets(low, high)) each(proxy);
        };
        if (!is_ready([] { return true; })) return ask_all(each_that_meets);
        pw_box box = coordinates.box_around(low, high).box;
        ask([&](std::vector<pw_handle>& found) { return world.hits({PW_REGION, ~0u, box.lo, box.hi}, found); }, each_that_meets);
    }

    // A ghost is asked for its pairs between two steps, so it has them at once, also with a box that comes to where it stands.
    void pair_at_once(Proxy& ghost) {
        find(ghost.m_aabbMin, ghost.m_aabbMax, [&](Proxy& other) {
            if (&other != &ghost) pair_early(ghost, other);
        });
    }
    void pair_with_ghosts(Proxy& other) {
        for (Proxy* ghost : ghosts)
            if (ghost->meets(other.m_aabbMin, other.m_aabbMax)) pair_early(*ghost, other);
    }
    void pair_early(Proxy& ghost, Proxy& other) {
        if (cache->findPair(&ghost, &other)) return;
        early.push_back({ghost.handle, other.handle});
        if (!cache->addOverlappingPair(&ghost, &other)) early.pop_back();
        else if (!own) settled++;
    }

    // What came early and the update didn't tell goes: the boxes have parted again, or may not pair any more.
    void drop_early_pairs(btDispatcher* dispatcher) {
        for (const Handles& pair : early) {
            Proxy *a = proxy_of(pair.first), *b = proxy_of(pair.second);
            if (a && b && !a->is_paired_with(*b)) cache->removeOverlappingPair(a, b, dispatcher);
        }
        early.clear();
    }
    template <class Which>
    void drop_pairs(btDispatcher* dispatcher, Which which) {
        struct Dropped : btOverlapCallback {
            Which which;
            explicit Dropped(Which which) : which(which) {}
            bool processOverlap(btBroadphasePair& pair) override {
                return which(*static_cast<Proxy*>(pair.m_pProxy0), *static_cast<Proxy*>(pair.m_pProxy1));
            }
        } dropped(which);
        cache->processAllOverlappingPairs(&dropped, dispatcher);
    }

    // Hands moves on before a question. Whether the library can be asked, also by what `if_so` tells, which looks at what moves write.
    template <class Test>
    bool is_ready(Test if_so) {
        std::lock_guard lock(mutex);
        return flush() == Status::ok && if_so();
    }

    // A question with a room for its answer. Callbacks run while it lives: they may ask too, in rooms of their own, and open no world anew.
    class Asking {
        BulletBroadphase& asked;

    public:
        std::vector<pw_handle> found;
        Count count{};

        template <class Question>
        Asking(BulletBroadphase& broadphase, Question&& question) : asked(broadphase) {
            std::lock_guard lock(asked.mutex);
            if (asked.rooms.empty()) {
                // So that it goes back without memory.
                asked.rooms.reserve(asked.rooms_made + 1);
                found.resize(PW_SLOTS);
                asked.rooms_made++;
            } else {
                found = std::move(asked.rooms.back());
                asked.rooms.pop_back();
            }
            count = question(found);
            asked.asking++;
        }
        ~Asking() {
            std::lock_guard lock(asked.mutex);
            asked.rooms.push_back(std::move(found));
            asked.asking--;
        }
        Asking(const Asking&) = delete;
    };

    // Asks, and calls for each proxy found that is still there when its turn comes. If memory runs out it calls for all, so whom it calls
    // for is tested there.
    template <class Question, class Each>
    void ask(Question&& question, Each&& each) {
        Asking now(*this, question);
        if (now.count.status != Status::ok) return ask_all(each);
        for (std::size_t k = 0; k < now.count.count; k++)
            if (Proxy* proxy = proxy_of(now.found[k])) each(*proxy);
    }
    // From the last on, so that no proxy is passed by if the callback destroys one, whose place the last one takes.
    template <class Each>
    void ask_all(Each&& each) {
        for (std::size_t k = proxies.size(); k-- > 0;)
            if (k < proxies.size()) each(*proxies[k].proxy);
    }
};

}  // namespace pungwelair

#endif
