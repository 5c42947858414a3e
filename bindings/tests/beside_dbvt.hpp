// btDbvtBroadphase beside another broad phase, for the tests: it has the same boxes at each step, and its pairs are looked at too.
#ifndef BESIDE_DBVT_HPP
#define BESIDE_DBVT_HPP

#include <BulletCollision/BroadphaseCollision/btDbvtBroadphase.h>
#include <LinearMath/btAabbUtil2.h>
#include <algorithm>
#include <map>
#include <vector>

class BesideDbvt {
    btDbvtBroadphase theirs;
    std::map<const btBroadphaseProxy*, btBroadphaseProxy*> twins;

public:
    ~BesideDbvt() { follow({}); }

    // Has dbvt's boxes where these stand, and ends a step of dbvt's. All are of one group that sees all, so its pairs are those that meet.
    void follow(const std::vector<btBroadphaseProxy*>& proxies) {
        for (auto* proxy : proxies) {
            auto& twin = twins[proxy];
            if (twin) theirs.setAabb(twin, proxy->m_aabbMin, proxy->m_aabbMax, nullptr);
            else twin = theirs.createProxy(proxy->m_aabbMin, proxy->m_aabbMax, 0, nullptr, 1, -1, nullptr);
        }
        for (auto at = twins.begin(); at != twins.end();) {
            bool stays = std::find(proxies.begin(), proxies.end(), at->first) != proxies.end();
            if (!stays) theirs.destroyProxy(at->second, nullptr);
            at = stays ? std::next(at) : twins.erase(at);
        }
        theirs.calculateOverlappingPairs(nullptr);
    }
    bool has(const btBroadphaseProxy* a, const btBroadphaseProxy* b) {
        return theirs.getOverlappingPairCache()->findPair(twins.at(a), twins.at(b)) != nullptr;
    }

    // Compares the pairs of a cache with those that testing all boxes finds, and these with dbvt's, by `expect(is_so, what)`. Tells how
    // many pairs meet and may.
    template <class Expect>
    int compare(btOverlappingPairCache* cache, const std::vector<btBroadphaseProxy*>& proxies, Expect expect) {
        follow(proxies);
        int met = 0;
        for (std::size_t a = 0; a < proxies.size(); a++)
            for (std::size_t b = 0; b < a; b++) {
                auto *one = proxies[a], *other = proxies[b];
                if (!TestAabbAgainstAabb2(one->m_aabbMin, one->m_aabbMax, other->m_aabbMin, other->m_aabbMax)) continue;
                expect(has(one, other), "a pair that meets is in the cache of dbvt");
                if (!cache->needsBroadphaseCollision(one, other)) continue;
                met++;
                expect(cache->findPair(one, other) != nullptr, "a pair that meets and may is in the cache");
            }
        btBroadphasePairArray& pairs = cache->getOverlappingPairArray();
        const btVector3 grown(btScalar(0.001), btScalar(0.001), btScalar(0.001));
        for (int k = 0; k < pairs.size(); k++) {
            const auto *one = pairs[k].m_pProxy0, *other = pairs[k].m_pProxy1;
            bool touch = TestAabbAgainstAabb2(one->m_aabbMin - grown, one->m_aabbMax + grown, other->m_aabbMin, other->m_aabbMax);
            expect(touch, "a pair in the cache meets");
        }
        return met;
    }
};

#endif
