// A player of scenes of version 1 through the library: it reads a scene on standard input and writes the report that broadplay writes.
// The word names the structure. A line that the format refuses ends it with status 1, since only whole scenes are compared.
#include "pungwelair.hpp"
#include <cstdio>
#include <cstdlib>
#include <cstring>
#include <iostream>
#include <string>
#include <vector>

using pungwelair::Status;
using Words = std::vector<std::string>;

namespace {

[[noreturn]] void fail(const char* what) {
    std::fprintf(stderr, "play: %s\n", what);
    std::exit(1);
}

void must(Status status) {
    if (status != Status::ok) fail("a call was refused");
}

// The words before a comment, parted by spaces and tabs. A carriage return right before the line's end belongs to the end.
Words words_of(std::string line) {
    if (!line.empty() && line.back() == '\r') line.pop_back();
    line = line.substr(0, line.find('#'));
    Words words;
    for (std::size_t at = line.find_first_not_of(" \t"); at != std::string::npos;) {
        std::size_t end = line.find_first_of(" \t", at);
        words.push_back(line.substr(at, end - at));
        at = line.find_first_not_of(" \t", end);
    }
    return words;
}

// The raw number that is nearest to a decimal one: nine digits behind the point can't name the middle between two.
int32_t raw_of(const std::string& word) {
    bool negative = word[0] == '-';
    std::size_t at = negative, point = word.find('.');
    std::string whole = word.substr(at, point - at), parts = point == std::string::npos ? "" : word.substr(point + 1);
    if (whole.empty() || whole.size() > 10 || parts.size() > 9) fail("number");
    int64_t unit = 1;
    for (std::size_t k = 0; k < parts.size(); k++) unit *= 10;
    int64_t behind = parts.empty() ? 0 : std::stoll(parts);
    int64_t raw = std::stoll(whole) * 65536 + (behind * 65536 * 2 + unit) / (unit * 2);
    return int32_t(negative ? -raw : raw);
}

pw_point point_at(const Words& words, std::size_t at) {
    if (words.size() < at + 3) fail("count");
    return {raw_of(words[at]), raw_of(words[at + 1]), raw_of(words[at + 2])};
}

pw_box box_at(const Words& words, std::size_t at) { return {point_at(words, at), point_at(words, at + 3)}; }

uint32_t mask_at(const Words& words, std::size_t at, uint32_t left_out) {
    return at < words.size() ? uint32_t(std::stoul(words[at], nullptr, 16)) : left_out;
}

pw_handle handle_at(const Words& words, std::size_t at) {
    std::size_t colon = words.at(at).find(':');
    if (colon == std::string::npos) fail("handle");
    return {uint32_t(std::stoul(words[at])), uint32_t(std::stoul(words[at].substr(colon + 1)))};
}

std::string text_of(pw_handle handle) { return std::to_string(handle.slot) + ":" + std::to_string(handle.generation); }

bool same(const pw_told& a, const pw_told& b) { return std::memcmp(&a, &b, sizeof a) == 0; }

class Player {
    pungwelair::World world;
    std::string report;
    std::vector<pw_handle> hits = std::vector<pw_handle>(PW_SLOTS);

    void reply(const std::string& line) { report += line + '\n'; }

    // A change of a box: nothing is said of it, unless its handle is stale.
    void change(Status status, pw_handle handle) {
        if (status == Status::stale) return reply("stale " + text_of(handle));
        must(status);
    }

    void add(const Words& words) {
        pw_new how = pw_seen_by_all();
        how.masks = {mask_at(words, 7, 1), mask_at(words, 8, ~0u)};
        auto handle = world.add(box_at(words, 1), how);
        if (!handle) fail("a box was refused");
        reply("add " + text_of(*handle));
    }

    void end_frame() {
        static const char* const names[] = {"begin ", "stay ", "over "};
        auto frame = world.update();
        must(frame.status);
        reply("frame " + std::to_string(world.info()->frames) + " " + std::to_string(frame.pairs));
        std::vector<pw_told> events(frame.events), changes(frame.changes);
        std::vector<pw_pair> pairs(frame.pairs);
        auto copied = world.events(0, events);
        must(copied.status);
        if (copied.count != frame.events) fail("events are missing");
        copied = world.changes(0, changes);
        must(copied.status);
        if (copied.count != frame.changes) fail("changes are missing");
        auto change = changes.begin();
        for (const pw_told& told : events) {
            reply(names[told.event] + text_of(told.pair.a) + " " + text_of(told.pair.b));
            if (told.event == PW_STAY) continue;
            if (change == changes.end() || !same(*change++, told)) fail("other changes than events");
        }
        if (change != changes.end()) fail("more changes than events");
        must(world.pairs(0, pairs).status);
        for (std::size_t k = 0; k < pairs.size(); k++)
            if (pairs[k].a.slot != events[k].pair.a.slot || pairs[k].b.slot != events[k].pair.b.slot) fail("other pairs than events");
    }

    // A scene's mask of no group finds nothing. The library's looks at no group, and finds all.
    void ask(const std::string& name, const pw_query& query) {
        auto found = world.hits(query, hits);
        must(found.status);
        if (query.mask == 0) found.count = 0;
        report += name + " " + std::to_string(found.count);
        for (std::size_t k = 0; k < found.count; k++) report += " " + text_of(hits[k]);
        report += '\n';
    }

public:
    explicit Player(pungwelair::Structure structure) : world(structure) {}

    void play(const Words& words) {
        const std::string& name = words[0];
        if (name == "add") add(words);
        else if (name == "move") change(world.move(handle_at(words, 1), box_at(words, 2)), handle_at(words, 1));
        else if (name == "mask") change(world.mask(handle_at(words, 1), {mask_at(words, 2, 0), mask_at(words, 3, 0)}), handle_at(words, 1));
        else if (name == "remove") change(world.remove(handle_at(words, 1)), handle_at(words, 1));
        else if (name == "frame") end_frame();
        else if (name == "box") ask(name, {PW_REGION, mask_at(words, 7, ~0u), point_at(words, 1), point_at(words, 4)});
        else if (name == "point") ask(name, {PW_POINT, mask_at(words, 4, ~0u), point_at(words, 1), {0, 0, 0}});
        else if (name == "ray") ask(name, {PW_RAY, mask_at(words, 7, ~0u), point_at(words, 1), point_at(words, 4)});
        else if (name == "seg") ask(name, {PW_SEGMENT, mask_at(words, 7, ~0u), point_at(words, 1), point_at(words, 4)});
        else fail("word");
    }

    std::string end(std::size_t lines) {
        auto info = world.info();
        reply("end " + std::to_string(lines) + " " + std::to_string(info->frames) + " " + std::to_string(info->boxes));
        return std::move(report);
    }
};

pungwelair::Structure structure_of(const std::string& name) {
    if (name == "plain") return pungwelair::Structure::plain;
    if (name == "sap") return pungwelair::Structure::sap;
    if (name == "tree") return pungwelair::Structure::tree;
    if (name == "grid") return pungwelair::Structure::grid;
    if (name == "skin") return pungwelair::Structure::skin;
    fail("no such structure");
}

}  // namespace

int main(int count, char** arguments) {
    Player player(structure_of(count == 2 ? arguments[1] : ""));
    bool headed = false;
    std::size_t lines = 0;
    for (std::string line; std::getline(std::cin, line); lines++) {
        Words words = words_of(line);
        if (words.empty()) continue;
        if (headed) player.play(words);
        else if (words != Words{"scene", "1"}) fail("header");
        headed = true;
    }
    std::cout << player.end(lines);
    return 0;
}
