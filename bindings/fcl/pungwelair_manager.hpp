// fcl::BroadPhaseCollisionManager over worlds of this library, in float or double: callbacks hear of the pairs that FCL's naive manager
// hears of, if their boxes meet or are nearer than the bound. So a planner takes it in place of fcl::DynamicAABBTreeCollisionManager.
//
// Any number of objects and any boxes: FCL's are rounded outward to 1/65,536 and cut to -32,768 .. 32,767, and FCL's own boxes decide
// about what is found. So half spaces and planes may stand among the objects, as may boxes far out, inverted ones and those of a NaN;
// these cost the more the more of them there are, since all that lie beyond one side count as near one another. A world holds 8,192
// boxes. More objects stand in several worlds: a question asks each, and for pairs each object asks the worlds before its own.
//
// Several threads may ask at once: they take turns in each world, and no lock is held while callbacks run. A callback may ask this manager
// and others. Nothing may change a manager while it is asked: FclRefused is thrown, and nothing is changed. The same comes if memory
// runs out (or std::bad_alloc): then objects are those that were there before, and a question may be asked again. What a batch of moves
// has not moved, the next question or update moves.
#ifndef PUNGWELAIR_FCL_MANAGER_HPP
#define PUNGWELAIR_FCL_MANAGER_HPP

#include "pungwelair.hpp"
#include <algorithm>
#include <array>
#include <atomic>
#include <cmath>
#include <exception>
#include <fcl/broadphase/broadphase_collision_manager.h>
#include <fcl/narrowphase/collision_object.h>
#include <limits>
#include <mutex>
#include <optional>
#include <unordered_map>
#include <vector>

namespace pungwelair {

// Why a manager refused a call.
class FclRefused final : public std::exception {
    Status reason;
    const char* text;

public:
    explicit FclRefused(Status status) noexcept : FclRefused(status, text_of(status)) {}
    FclRefused(Status status, const char* why) noexcept : reason(status), text(why) {}
    // What the library answered, as no_memory; or argument, of a change while the manager is asked, and of a structure or a scale that
    // can't be taken.
    Status status() const noexcept { return reason; }
    const char* what() const noexcept override { return text; }
};

template <class S>
class FclManager final : public fcl::BroadPhaseCollisionManager<S> {
    using Manager = fcl::BroadPhaseCollisionManager<S>;
    using Object = fcl::CollisionObject<S>;
    using Objects = std::vector<Object*>;
    using Box = fcl::AABB<S>;
    using OnCollision = fcl::CollisionCallBack<S>;
    using OnDistance = fcl::DistanceCallBack<S>;

public:
    // Over tree, grid or skin, which are never spent. A length of FCL's is that of the library times a scale above 0: a planner in
    // metres within 32 km leaves it at 1.
    explicit FclManager(Structure kept_in = Structure::tree, double of_lengths = 1) : structure(kept_in), scale(of_lengths) {
        if (structure != Structure::tree && structure != Structure::grid && structure != Structure::skin)
            throw FclRefused(Status::argument, "a manager is over tree, grid or skin");
        if (!(scale > 0 && scale <= std::numeric_limits<double>::max())) throw FclRefused(Status::argument, "a scale is above 0");
    }

    // An object that is here already stays once. If one is refused, none of them comes.
    void registerObjects(const Objects& added) override {
        Change change(*this);
        Objects came;
        came.reserve(added.size());
        try {
            for (Object* object : added)
                if (put(object)) came.push_back(object);
        } catch (...) {
            for (Object* object : came) drop(object);
            throw;
        }
    }
    void registerObject(Object* object) override {
        Change change(*this);
        put(object);
    }
    void unregisterObject(Object* object) override {
        Change change(*this);
        drop(object);
    }
    void clear() override {
        Change change(*this);
        parts.clear();
        order_of.clear();
        is_current = is_behind = false;
    }

    // Pairs are found when they are asked for, so there is nothing to do.
    void setup() override {}

    // Objects whose boxes are as they were are no moves.
    void update() override {
        Change change(*this);
        move_all();
    }
    void update(Object* object) override {
        Change change(*this);
        move(&object, 1);
    }
    void update(const Objects& updated) override {
        Change change(*this);
        move(updated.data(), updated.size());
    }

    void getObjects(Objects& out) const override {
        std::lock_guard lock(mutex);
        out.clear();
        each([&](const Kept& kept) {
            out.push_back(kept.object);
            return false;
        });
    }
    bool empty() const override { return size() == 0; }
    std::size_t size() const override {
        std::lock_guard lock(mutex);
        return order_of.size();
    }

    // The asking object comes first. If it is one of those here it is told with itself, as by FCL's naive manager and its trees.
    void collide(Object* object, void* data, OnCollision callback) const override {
        Question question(*this);
        collide_with(object, [&](Object* found) { return callback(object, found, data); });
    }
    // Each pair once.
    void collide(void* data, OnCollision callback) const override {
        Question question(*this);
        find_pairs();
        auto told = [&](Object* a, Object* b) { return a->getAABB().overlap(b->getAABB()) && callback(a, b, data); };
        for (const Part& part : parts)
            for (const pw_pair& pair : part.pairs)
                if (told(part.by_slot[pair.a.slot].object, part.by_slot[pair.b.slot].object)) return;
        for (const auto& pair : crossing)
            if (told(pair.first, pair.second)) return;
    }
    // Of this manager's objects and the other's, the pairs with this one's object first. The other may be of any kind.
    void collide(Manager* other, void* data, OnCollision callback) const override {
        if (other == this) return collide(data, callback);
        between(
            other,
            [&](Object* mine, const FclManager& asked) {
                return asked.collide_with(mine, [&](Object* theirs) { return callback(mine, theirs, data); });
            },
            [&](Object* theirs) { return collide_with(theirs, [&](Object* mine) { return callback(mine, theirs, data); }); });
    }

    // The callback tells the least distance so far, and only objects whose boxes are nearer are handed to it from then on.
    void distance(Object* object, void* data, OnDistance callback) const override {
        Question question(*this);
        S least = std::numeric_limits<S>::max();
        distance_to(object, 0, least, [&](Object* found) { return callback(object, found, data, least); });
    }
    void distance(void* data, OnDistance callback) const override {
        Question question(*this);
        S least = std::numeric_limits<S>::max();
        each([&](const Kept& kept) {
            Object* object = kept.object;
            return distance_to(object, order_of.at(object) + 1, least, [&](Object* found) { return callback(object, found, data, least); });
        });
    }
    void distance(Manager* other, void* data, OnDistance callback) const override {
        if (other == this) return distance(data, callback);
        S least = std::numeric_limits<S>::max();
        between(
            other,
            [&](Object* mine, const FclManager& asked) {
                return asked.distance_to(mine, 0, least, [&](Object* theirs) { return callback(mine, theirs, data, least); });
            },
            [&](Object* theirs) {
                return distance_to(theirs, 0, least, [&](Object* mine) { return callback(mine, theirs, data, least); });
            });
    }

private:
    // An object, its handle, and its box as the world has it.
    struct Kept {
        Object* object = nullptr;
        pw_handle handle{};
        pw_box box{};
    };
    // A world, and the objects in it. An object's place in the order of all is the part's number times PW_SLOTS, and its slot.
    struct Part {
        World world;
        std::vector<Kept> by_slot;  // up to the highest slot that was given; it has room for all
        uint32_t count = 0;
        std::vector<pw_pair> pairs;
        std::vector<pw_handle> moved;
        std::vector<pw_box> moved_to;
    };
    struct Nearby {
        S distance;
        Object* object;
    };

    Structure structure;
    double scale;
    std::unordered_map<Object*, std::size_t> order_of;
    // FCL's questions are const. They find the pairs, and make up for moves that weren't done, under this lock; worlds have their own.
    mutable std::mutex mutex;
    mutable std::vector<Part> parts;
    // Pairs of objects of two parts.
    mutable std::vector<std::pair<Object*, Object*>> crossing;
    mutable std::atomic<std::size_t> asking{0};
    mutable bool is_current = false;  // the pairs are those of the boxes as they stand
    mutable bool is_behind = false;   // a batch of moves was not done, or not to its end

    static void must(Status status) {
        if (status != Status::ok) throw FclRefused(status);
    }

    // Holds the lock for a change, which is refused while the manager is asked.
    class Change {
        std::lock_guard<std::mutex> lock;

    public:
        explicit Change(FclManager& changed) : lock(changed.mutex) {
            if (changed.asking.load(std::memory_order_acquire) > 0)
                throw FclRefused(Status::argument, "a manager can't be changed while it is asked");
        }
    };

    // Holds changes off until the last callback of a question is over.
    class Question {
        const FclManager& asked;

    public:
        explicit Question(const FclManager& manager) : asked(manager) {
            std::lock_guard lock(asked.mutex);
            if (asked.is_behind) asked.move_all();
            asked.asking++;
        }
        Question(const Question&) = delete;
        ~Question() { asked.asking.fetch_sub(1, std::memory_order_release); }
    };

    // Calls for each object in order, until a call answers true.
    template <class Call>
    void each(Call call) const {
        for (const Part& part : parts)
            for (const Kept& kept : part.by_slot)
                if (kept.object && call(kept)) return;
    }

    // A box of FCL's, enlarged by a length of FCL's. Each step keeps the order of numbers, so boxes that meet have boxes here that meet.
    pw_box box_of(const Box& box, double by = 0) const {
        constexpr double least = -32768, most = 32767, unit = 65536;
        int32_t lo[3], hi[3];
        for (int axis = 0; axis < 3; axis++) {
            double first = (double(box.min_[axis]) - by) * scale, last = (double(box.max_[axis]) + by) * scale;
            // A NaN is as far as the range goes, and an inverted box is turned: FCL's boxes decide later.
            first = first >= least ? std::min(first, most) : least;
            last = last <= most ? std::max(last, least) : most;
            if (first > last) std::swap(first, last);
            // These products are exact.
            lo[axis] = int32_t(first * unit);
            lo[axis] -= lo[axis] > first * unit;
            hi[axis] = int32_t(last * unit);
            hi[axis] += hi[axis] < last * unit;
        }
        return {{lo[0], lo[1], lo[2]}, {hi[0], hi[1], hi[2]}};
    }

    Part& part_with_room() {
        for (Part& part : parts)
            if (part.count < PW_SLOTS) return part;
        Part made;
        made.by_slot.reserve(PW_SLOTS);
        must(made.world.open(structure));
        parts.push_back(std::move(made));
        return parts.back();
    }

    // Whether the object is new here.
    bool put(Object* object) {
        auto [known, is_new] = order_of.try_emplace(object);
        if (!is_new) return false;
        try {
            Part& part = part_with_room();
            pw_box box = box_of(object->getAABB());
            Result<pw_handle> handle = part.world.try_add(box);
            must(handle.error());
            if (handle->slot >= part.by_slot.size()) part.by_slot.resize(handle->slot + 1);
            part.by_slot[handle->slot] = {object, *handle, box};
            part.count++;
            known->second = std::size_t(&part - parts.data()) * PW_SLOTS + handle->slot;
        } catch (...) {
            order_of.erase(known);
            throw;
        }
        is_current = false;
        return true;
    }

    void drop(Object* object) {
        auto known = order_of.find(object);
        if (known == order_of.end()) return;
        Part& part = parts[known->second / PW_SLOTS];
        Kept& kept = part.by_slot[known->second % PW_SLOTS];
        // It wants no memory, since no mark is held.
        static_cast<void>(part.world.remove(kept.handle));
        kept = {};
        part.count--;
        order_of.erase(known);
        is_current = false;
    }

    void note_move(Part& part, const Kept& kept) const {
        pw_box box = box_of(kept.object->getAABB());
        if (box == kept.box) return;
        part.moved.push_back(kept.handle);
        part.moved_to.push_back(box);
    }
    void move(Object* const* objects, std::size_t count) {
        if (is_behind) return move_all();
        is_behind = true;
        for (std::size_t k = 0; k < count; k++) {
            auto known = order_of.find(objects[k]);
            if (known == order_of.end()) continue;
            Part& part = parts[known->second / PW_SLOTS];
            note_move(part, part.by_slot[known->second % PW_SLOTS]);
        }
        move_noted();
    }
    void move_all() const {
        is_behind = true;
        for (Part& part : parts) {
            part.moved.clear();
            part.moved_to.clear();
            for (const Kept& kept : part.by_slot)
                if (kept.object) note_move(part, kept);
        }
        move_noted();
    }
    void move_noted() const {
        for (Part& part : parts) {
            if (part.moved.empty()) continue;
            is_current = false;
            Batch batch = part.world.move(part.moved, part.moved_to);
            for (std::size_t k = 0; k < batch.done; k++) part.by_slot[part.moved[k].slot].box = part.moved_to[k];
            must(batch.status);
            part.moved.clear();
            part.moved_to.clear();
        }
        is_behind = false;
    }

    // The handles in a part whose boxes meet a region.
    static std::vector<pw_handle> meeting(const Part& part, const pw_box& region) {
        std::vector<pw_handle> found(256);
        Count count = part.world.hits({PW_REGION, ~0u, region.lo, region.hi}, found);
        if (count.status == Status::ok && count.count > found.size()) {
            found.resize(count.count);
            count = part.world.hits({PW_REGION, ~0u, region.lo, region.hi}, found);
        }
        must(count.status);
        found.resize(count.count);
        return found;
    }
    // The nearest to a box, from a distance on.
    static std::vector<pw_handle> nearest(const Part& part, const pw_near_box& near_to) {
        std::vector<pw_handle> found(std::min(near_to.want, PW_SLOTS));
        Count count = part.world.nearest_box(near_to, found);
        must(count.status);
        found.resize(std::min(count.count, found.size()));
        return found;
    }
    // Some more than a bound of FCL's, for what its distances and these sums are rounded by.
    double reach(S least) const { return double(least) * 1.00001 + 0.0001 / scale; }
    // The distance of two boxes of the library's, as a length of FCL's: none that FCL's own boxes have is shorter.
    double apart(const pw_box& a, const pw_box& b) const {
        auto between = [](int32_t lo, int32_t hi, int32_t other_lo, int32_t other_hi) {
            return std::max(0.0, std::max(double(lo) - other_hi, double(other_lo) - hi));
        };
        double x = between(a.lo.x, a.hi.x, b.lo.x, b.hi.x), y = between(a.lo.y, a.hi.y, b.lo.y, b.hi.y);
        double z = between(a.lo.z, a.hi.z, b.lo.z, b.hi.z);
        return std::sqrt(x * x + y * y + z * z) / 65536 / scale;
    }

    // No frame ends, since nobody asks what began.
    void find_pairs() const {
        std::lock_guard lock(mutex);
        if (is_current) return;
        crossing.clear();
        for (Part& part : parts) {
            part.pairs.resize(std::max<std::size_t>(part.pairs.capacity(), 256));
            Count count = part.world.pairs_now(0, part.pairs);
            if (count.status == Status::ok && count.count > part.pairs.size()) {
                part.pairs.resize(count.count);
                count = part.world.pairs_now(0, part.pairs);
            }
            must(count.status);
            part.pairs.resize(count.count);
            for (Part* before = parts.data(); before != &part; before++)
                for (const Kept& kept : part.by_slot)
                    if (kept.object) cross(*before, kept);
        }
        is_current = true;
    }
    void cross(Part& before, const Kept& kept) const {
        for (pw_handle handle : meeting(before, kept.box)) crossing.push_back({before.by_slot[handle.slot].object, kept.object});
    }

    // Whether the callback has had enough.
    template <class Callback>
    bool collide_with(Object* object, Callback callback) const {
        const Box& box = object->getAABB();
        pw_box region = box_of(box);
        for (Part& part : parts)
            for (pw_handle handle : meeting(part, region)) {
                Object* found = part.by_slot[handle.slot].object;
                if (box.overlap(found->getAABB()) && callback(found)) return true;
            }
        return false;
    }

    // The objects that may be nearer than `least`, from one in the order on.
    template <class Callback>
    bool distance_to(Object* object, std::size_t from, S& least, Callback callback) const {
        std::size_t first = from % PW_SLOTS;
        for (std::size_t k = from / PW_SLOTS; k < parts.size(); k++, first = 0)
            if (distance_in(parts[k], first, object->getAABB(), least, callback)) return true;
        return false;
    }
    // Until the callback has told a bound, objects are taken in order of distance, first the nearest alone and then more at a time. Then
    // all are taken whose boxes are nearer than the bound, the nearest first, unless those before reach to the bound.
    template <class Callback>
    bool distance_in(Part& part, std::size_t first, const Box& box, S& least, Callback callback) const {
        constexpr S unbounded = std::numeric_limits<S>::max();
        std::vector<bool> is_tried;
        pw_near_box near_to{~0u, 1, box_of(box), {0, 0}};
        while (least == unbounded) {
            std::vector<pw_handle> found = nearest(part, near_to);
            for (pw_handle handle : found) {
                uint32_t slot = handle.slot;
                // Those as near as the last one are told again.
                if (!is_tried.empty() && is_tried[slot]) continue;
                if (apart(near_to.body, part.by_slot[slot].box) > reach(least)) return false;
                Object* object = part.by_slot[slot].object;
                if (slot >= first && box.distance(object->getAABB()) < least && callback(object)) return true;
            }
            if (found.size() < near_to.want || near_to.want == PW_SLOTS) return false;
            is_tried.resize(PW_SLOTS);
            for (pw_handle handle : found) is_tried[handle.slot] = true;
            if (least != unbounded) break;
            auto square = part.world.try_square_apart(near_to.body, found.back());
            must(square.error());
            near_to.from = *square;
            near_to.want = std::min<uint32_t>(near_to.want * 4, PW_SLOTS);
        }
        if (!(least > 0)) return false;
        std::vector<Nearby> nearby;
        for (pw_handle handle : meeting(part, box_of(box, reach(least)))) {
            if (handle.slot < first || (!is_tried.empty() && is_tried[handle.slot])) continue;
            Object* object = part.by_slot[handle.slot].object;
            S distance = box.distance(object->getAABB());
            if (distance < least) nearby.push_back({distance, object});
        }
        std::sort(nearby.begin(), nearby.end(), [](const Nearby& a, const Nearby& b) { return a.distance < b.distance; });
        for (const Nearby& next : nearby) {
            if (!(next.distance < least)) break;
            if (callback(next.object)) return true;
        }
        return false;
    }

    // Asks one of two managers for each object of the other: the larger one, if both are of this kind.
    template <class OfMine, class OfTheirs>
    void between(Manager* other, OfMine of_mine, OfTheirs of_theirs) const {
        Question question(*this);
        auto* alike = dynamic_cast<const FclManager*>(other);
        std::optional<Question> of_other;
        if (alike) of_other.emplace(*alike);
        if (alike && alike->order_of.size() > order_of.size()) {
            each([&](const Kept& kept) { return of_mine(kept.object, *alike); });
            return;
        }
        Objects theirs;
        other->getObjects(theirs);
        for (Object* object : theirs)
            if (of_theirs(object)) return;
    }
};

}  // namespace pungwelair

#endif
