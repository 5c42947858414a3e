// How places of a Bullet world lie in the range of the library, for pungwelair_broadphase.hpp. Boxes are taken there by steps that never
// turn two numbers round, so boxes that meet have boxes here that meet. Rays are taken by doubles, with room for all that is rounded on
// the way.
#ifndef PUNGWELAIR_BULLET_COORDINATES_HPP
#define PUNGWELAIR_BULLET_COORDINATES_HPP

#include "pungwelair.hpp"
#include <BulletCollision/BroadphaseCollision/btBroadphaseInterface.h>
#include <algorithm>
#include <cmath>

namespace pungwelair {

// The whole numbers beside a number of raw units within the range, as pw_box_around_double takes them for a lower and an upper side.
inline int32_t raw_floor(double raw) {
    int32_t whole = int32_t(raw);
    return whole - (whole > raw);
}
inline int32_t raw_ceiling(double raw) {
    int32_t whole = int32_t(raw);
    return whole + (whole < raw);
}

class BulletCoordinates {
public:
    // A place of Bullet's world is (place - origin) * scale here.
    BulletCoordinates(const btVector3& origin, double scale) : origin(origin), scale(scale) {}

    // A box as the library takes it.
    struct Placed {
        pw_box box;
        bool is_at_rim;  // it was cut to the range, or stands within some units of its end
    };
    // What pw_box_around_double gives of a box, cut to the range. It stands here since each box that moves in a step takes it.
    Placed box_around(const btVector3& low, const btVector3& high) const {
        int32_t lo[3], hi[3];
        bool is_at_rim = false;
        for (int axis = 0; axis < 3; axis++) {
            double first = here(low, axis), last = here(high, axis);
            if (!(least + rim <= first && first <= last && last <= most - rim)) is_at_rim |= cut(first, last);
            // The products are exact.
            lo[axis] = raw_floor(first * unit);
            hi[axis] = raw_ceiling(last * unit);
        }
        return {{{lo[0], lo[1], lo[2]}, {hi[0], hi[1], hi[2]}}, is_at_rim};
    }

    // The way of a moved box, by parts that the library can cast.
    struct Way {
        double start[3], by[3], enter = 0, leave = 1;
        int parts = 0;
        bool is_whole = true;  // it misses no box except those at the rim
    };
    // Cut to where the moved box stands in the range. No part if it never does.
    Way way(const btVector3& from, const btVector3& to, const btVector3& low, const btVector3& high) const {
        Way way;
        double longest = 0;
        for (int axis = 0; axis < 3; axis++) {
            way.start[axis] = here(from, axis);
            way.by[axis] = here(to, axis) - way.start[axis];
            double first = least + rim / 2 - double(low[axis]) * scale, last = most - rim / 2 - double(high[axis]) * scale;
            // Doubles would round such a way by more than the casts are wider, and a box as wide as the range has no way in it.
            way.is_whole &= std::abs(way.start[axis]) < farthest && std::abs(way.by[axis]) < farthest && first <= last;
            if (!way.is_whole) return way;
            cut_way(way, way.start[axis], way.by[axis], first, last);
        }
        if (way.enter > way.leave) return way;
        for (double by : way.by) longest = std::max(longest, std::abs(by) * (way.leave - way.enter));
        // A displacement of the library reaches half the range.
        way.parts = longest < most - rim ? 1 : 3;
        return way;
    }
    static bool is_cut(const Way& way) { return way.parts == 0 || way.enter > 0 || way.leave < 1; }

    // Where on the way a part begins.
    static double enters(const Way& way, int part) { return way.enter + (way.leave - way.enter) * part / way.parts; }

    // A part of the way, or what lies before `end` of it.
    pw_cast cast(const Way& way, int part, const btVector3& low, const btVector3& high, double end = 1) const {
        double enter = enters(way, part), leave = std::max(enter, std::min(enters(way, part + 1), end));
        int32_t lo[3], hi[3], by[3];
        for (int axis = 0; axis < 3; axis++) {
            double first = std::nearbyint((way.start[axis] + way.by[axis] * enter) * unit);
            double last = std::nearbyint((way.start[axis] + way.by[axis] * leave) * unit);
            lo[axis] = int32_t(first + std::floor(double(low[axis]) * scale * unit) - wider);
            hi[axis] = int32_t(first + std::ceil(double(high[axis]) * scale * unit) + wider);
            by[axis] = int32_t(last - first);
        }
        return {~0u, {{lo[0], lo[1], lo[2]}, {hi[0], hi[1], hi[2]}}, {by[0], by[1], by[2]}};
    }

private:
    static constexpr double least = -32768, most = 32767, unit = 65536, rim = 16;
    // Raw units that a cast is wider on each side: two roundings to whole ones, and those of doubles below `farthest`.
    static constexpr double wider = 3, farthest = 1 << 30;

    btVector3 origin;
    double scale;

    double here(const btVector3& place, int axis) const { return (double(place[axis]) - double(origin[axis])) * scale; }

    // Cuts an interval to the range. A NaN counts as the end of the range, and an inverted interval is turned.
    static bool cut(double& first, double& last) {
        first = first >= least ? std::min(first, most) : least;
        last = last <= most ? std::max(last, least) : most;
        if (first > last) std::swap(first, last);
        return first < least + rim || last > most - rim;
    }

    static void cut_way(Way& way, double start, double by, double first, double last) {
        if (by == 0) {
            if (start < first || start > last) way.leave = -1;
            return;
        }
        double one = (first - start) / by, other = (last - start) / by;
        way.enter = std::max(way.enter, std::min(one, other));
        way.leave = std::min(way.leave, std::max(one, other));
    }
};

// Whether a box that is moved from `from` to `to` may meet another on its way. What doubles round counts as met, a NaN as missed.
inline bool may_meet(const btVector3& from, const btVector3& to, const btVector3& low, const btVector3& high,
                     const btBroadphaseProxy& other) {
    double enter = 0, leave = 1;
    for (int axis = 0; axis < 3; axis++) {
        double start = from[axis], by = double(to[axis]) - start;
        double first = double(other.m_aabbMin[axis]) - high[axis] - start, last = double(other.m_aabbMax[axis]) - low[axis] - start;
        double slack = (std::abs(start) + std::abs(by) + std::abs(first) + std::abs(last)) * 1e-14;
        first -= slack;
        last += slack;
        if (!(first <= last) || std::isnan(by)) return false;
        if (by == 0 && (first > 0 || last < 0)) return false;
        if (by == 0) continue;
        enter = std::max(enter, std::min(first / by, last / by));
        leave = std::min(leave, std::max(first / by, last / by));
    }
    return enter <= leave + 1e-14;
}

// Whether a ray meets the box before `m_lambda_max`, the length that its callback leaves it. What rounding may decide counts as met.
inline bool is_reached(const btVector3& from, const btVector3& low, const btVector3& high, const btBroadphaseProxy& other,
                       const btBroadphaseRayCallback& ray) {
    double enter = 0;
    for (int axis = 0; axis < 3; axis++) {
        double near_side = ray.m_signs[axis] ? double(other.m_aabbMax[axis]) - low[axis] : double(other.m_aabbMin[axis]) - high[axis];
        enter = std::max(enter, (near_side - from[axis]) * double(ray.m_rayDirectionInverse[axis]));
    }
    // A direction without a part on an axis has a huge inverse, by which a touch would be a far one.
    return enter <= double(ray.m_lambda_max) * 1.0001 + 0.001 || enter > 1e9;
}

// How much of the way from `from` to `to` its callback leaves a ray, with more room for rounding than `is_reached` has. It is 1, for all
// of it, also if the callback's direction isn't that of the way.
inline double part_that_is_left(const btVector3& from, const btVector3& to, const btBroadphaseRayCallback& ray) {
    double reach = double(ray.m_lambda_max) * 1.0002 + 0.002, left = 0;
    bool is_long = false;
    for (int axis = 0; axis < 3; axis++) {
        double by = double(to[axis]) - from[axis], length = by * double(ray.m_rayDirectionInverse[axis]);
        if (by == 0) continue;
        if (!(length > 0)) return 1;
        left = std::max(left, reach / length);
        is_long = true;
    }
    return is_long ? std::min(left, 1.0) : 1;
}

}  // namespace pungwelair

#endif
