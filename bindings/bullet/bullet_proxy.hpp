// A proxy of Bullet's with what the library was told of it, for pungwelair_broadphase.hpp.
#ifndef PUNGWELAIR_BULLET_PROXY_HPP
#define PUNGWELAIR_BULLET_PROXY_HPP

#include "pungwelair.hpp"
#include <BulletCollision/BroadphaseCollision/btBroadphaseProxy.h>
#include <LinearMath/btAabbUtil2.h>
#include <cstring>
#include <type_traits>

namespace pungwelair {

struct BulletProxy final : btBroadphaseProxy {
    pw_handle handle{};
    pw_box has{};            // the box that the library has
    pw_masks told{};         // and the masks
    std::size_t place = 0;   // in the list of all
    bool waits = false;      // a move of it waits
    bool is_at_rim = false;  // its box leaves the range, or nearly so
    bool is_ghost = false;

    BulletProxy(const btVector3& low, const btVector3& high, void* object, int group, int mask)
        : btBroadphaseProxy(low, high, object, group, mask) {
        set_box(low, high);
    }

    // An inverted box is put right.
    void set_box(const btVector3& low, const btVector3& high) {
        m_aabbMin = low;
        m_aabbMax = high;
        if (m_aabbMin.x() <= m_aabbMax.x() && m_aabbMin.y() <= m_aabbMax.y() && m_aabbMin.z() <= m_aabbMax.z()) return;
        btVector3 first = m_aabbMin;
        m_aabbMin.setMin(m_aabbMax);
        m_aabbMax.setMax(first);
    }

    bool stands_at(const btVector3& low, const btVector3& high) const { return are_same(m_aabbMin, low) && are_same(m_aabbMax, high); }

    bool meets(const btVector3& low, const btVector3& high) const { return TestAabbAgainstAabb2(m_aabbMin, m_aabbMax, low, high); }

    // Group and mask by one load.
    uint64_t filter() const { return uint32_t(m_collisionFilterGroup) | uint64_t(uint32_t(m_collisionFilterMask)) << 32; }

    // One that is in no group pairs with nothing, and is found by questions all the same.
    pw_masks masks() const {
        if (m_collisionFilterGroup == 0) return {1, 0};
        return {uint32_t(m_collisionFilterGroup), uint32_t(m_collisionFilterMask)};
    }

    // Whether the library has them as a pair.
    bool is_paired_with(const BulletProxy& other) const {
        const pw_box &one = has, &two = other.has;
        return one.lo.x <= two.hi.x && two.lo.x <= one.hi.x && one.lo.y <= two.hi.y && two.lo.y <= one.hi.y && one.lo.z <= two.hi.z &&
               two.lo.z <= one.hi.z && (told.is & other.told.sees) && (other.told.is & told.sees);
    }

private:
    using Bits = std::conditional_t<sizeof(btScalar) == 4, uint32_t, uint64_t>;

    // By their bits, since a NaN that stays is no move either, and without a branch for each number.
    static bool are_same(const btVector3& a, const btVector3& b) {
        return ((bits(a.x()) ^ bits(b.x())) | (bits(a.y()) ^ bits(b.y())) | (bits(a.z()) ^ bits(b.z()))) == 0;
    }
    static Bits bits(btScalar number) {
        Bits bits;
        std::memcpy(&bits, &number, sizeof bits);
        return bits;
    }
};

}  // namespace pungwelair

#endif
