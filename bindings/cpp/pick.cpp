// A scene is picked by the mouse: the ray of a click, through all that it meets in the order in which it meets it, then through what
// may be selected alone. A click on a lamp hides it, and the next one takes what stands behind.
#include "pungwelair.hpp"
#include <array>
#include <cstdio>
#include <cstdlib>
#include <vector>

namespace {

enum Group : uint32_t { scenery = 1, unit = 2, handle_of_editor = 4 };

struct Thing {
    const char* name;
    float lo[3], hi[3];
    Group group;
};

const Thing things[] = {
    {"ground", {-20, -1, -20}, {20, 0, 20}, scenery},       {"house", {4, 0, 4}, {8, 5, 8}, scenery},
    {"lamp", {1.5f, 0, 1.5f}, {2.5f, 3.3f, 2.5f}, unit},    {"guard", {2.7f, 0, 2.7f}, {3.4f, 1.9f, 3.3f}, unit},
    {"dog", {5.1f, 0, 2.2f}, {5.9f, 0.9f, 3}, unit},         {"gizmo", {2.4f, 1.2f, 2.4f}, {2.6f, 2.8f, 2.6f}, handle_of_editor},
};
constexpr std::size_t count_of_things = sizeof things / sizeof *things;

// The scene that the mouse picks from. The names are indexed by slots.
struct Scene {
    pungwelair::World world{pungwelair::Structure::tree};
    std::vector<const char*> names;
    std::vector<pw_handle> handles;

    Scene() {
        for (const Thing& thing : things) {
            auto box = pungwelair::box_around(thing.lo, thing.hi);
            auto handle = box ? world.add(*box, {{thing.group, 0}, {0, 0}}) : std::nullopt;
            if (!handle) std::exit(1);
            names.push_back(thing.name);
            handles.push_back(*handle);
        }
    }
};

// The ray of a click: from the eye, through a pixel. Its length doesn't matter, so the direction is taken as it comes.
pw_ray click(float x, float y, uint32_t mask) {
    const float eye[3] = {-2, 6, -2}, through[3] = {-1, 6 + y, -1 + x};
    int32_t raw[6];
    for (int k = 0; k < 3; k++) {
        auto from = pungwelair::fix_below(eye[k]), way = pungwelair::fix_below(through[k] - eye[k]);
        if (!from || !way) std::exit(1);
        raw[k] = *from, raw[3 + k] = *way;
    }
    return {mask, {raw[0], raw[1], raw[2]}, {raw[3], raw[4], raw[5]}};
}

void print_all(Scene& scene, const char* title, const pw_ray& ray) {
    std::array<pw_handle, count_of_things> met;
    auto found = scene.world.ray_hits(ray, met);
    std::printf("%s:", title);
    for (std::size_t k = 0; k < found.count && k < met.size(); k++) std::printf(" %s", scene.names[met[k].slot]);
    std::printf("%s\n", found.count ? "" : " nothing");
}

void print_first(Scene& scene, const char* title, const pw_ray& ray) {
    auto first = scene.world.first_hit(ray);
    std::printf("%s: %s\n", title, first ? scene.names[first->slot] : "nothing");
}

}  // namespace

int main() {
    Scene scene;
    pw_ray all = click(0, -0.85f, ~0u), units = click(0, -0.85f, unit);
    print_all(scene, "all under the mouse", all);
    print_first(scene, "first of all", all);
    print_first(scene, "first that may be selected", units);
    print_all(scene, "in the sky", click(0, 1, ~0u));

    // A hidden thing is in no group, so no ray finds it. Its handle stays good.
    if (scene.world.mask(scene.handles[2], {0, 0}) != pungwelair::Status::ok) return 1;
    print_first(scene, "behind the hidden lamp", units);

    // What stands within reach is asked by a segment, and a selection that was drawn by its box.
    std::vector<pw_handle> met(count_of_things);
    const pw_point from = units.from, way = units.direction;
    pw_query within_reach{PW_SEGMENT, unit, from, {from.x + 5 * way.x, from.y + 5 * way.y, from.z + 5 * way.z}};
    std::printf("within reach: %zu\n", scene.world.hits(within_reach, met).count);
    const float drawn_lo[3] = {2, 0, 2}, drawn_hi[3] = {6, 2, 6};
    auto drawn = pungwelair::box_around(drawn_lo, drawn_hi);
    if (!drawn) return 1;
    auto selected = scene.world.hits({PW_REGION, unit, drawn->lo, drawn->hi}, met);
    std::printf("selected:");
    for (std::size_t k = 0; k < selected.count; k++) std::printf(" %s", scene.names[met[k].slot]);
    std::printf("\n");

    // A world that is moved from is closed.
    pungwelair::World taken = std::move(scene.world);
    std::printf("closed: %s\n", scene.world.update().status == pungwelair::Status::closed ? "yes" : "no");
    std::printf("boxes that moved along: %u\n", taken.info() ? taken.info()->boxes : 0);
    return 0;
}
