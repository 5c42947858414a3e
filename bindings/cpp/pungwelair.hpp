// Pungwelair's broad phase for C++17: what pungwelair.h does, with an owner, a status that is a type, and spans. It throws nothing
// and takes no memory of its own. What each call means, and what it costs, stands in pungwelair.h.
//
//     pungwelair::World world(pungwelair::Structure::tree);   // world.status() tells whether it is open
//     auto box = pungwelair::box_around(low, high);           // three floats each
//     auto crate = box ? world.add(*box) : std::nullopt;      // a handle; try_add tells why there is none
//     for (;;) {                                              // a tick
//         auto moved = world.move(handles, boxes);            // moved.status, moved.done
//         auto frame = world.update();                        // frame.status, frame.pairs, frame.events, frame.changes
//         auto told = world.changes(0, changes);              // told.status, told.count
//         if (auto hit = world.ray_first(ray)) shoot(*hit);   // hit->handle, hit->place(), hit->normal()
//     }
//
// Calls that are const may be made by several threads at once on one object, as is the way of the standard library: they take turns.
// While a call that isn't const runs, no other does.
#ifndef PUNGWELAIR_HPP
#define PUNGWELAIR_HPP

#include "pungwelair.h"
#include <array>
#include <cstddef>
#include <cstdint>
#include <functional>
#include <initializer_list>
#include <iterator>
#include <mutex>
#include <optional>
#include <type_traits>
#include <utility>

namespace pungwelair {

// What a call came to.
enum class [[nodiscard]] Status : pw_status {
    ok = PW_OK,
    stale = PW_STALE,
    full = PW_FULL,
    no_memory = PW_NO_MEMORY,
    inverted = PW_INVERTED,
    closed = PW_CLOSED,
    argument = PW_ARGUMENT,
    exhausted = PW_EXHAUSTED,
    no_mark = PW_NO_MARK,
    not_a_number = PW_NOT_A_NUMBER,
    out_of_range = PW_OUT_OF_RANGE,
    shared = PW_SHARED
};

// A status in words, for a log.
[[nodiscard]] constexpr const char* text_of(Status status) noexcept {
    switch (status) {
        case Status::ok: return "ok";
        case Status::stale: return "stale";
        case Status::full: return "full";
        case Status::no_memory: return "no memory";
        case Status::inverted: return "inverted";
        case Status::closed: return "closed";
        case Status::argument: return "argument";
        case Status::exhausted: return "exhausted";
        case Status::no_mark: return "no mark";
        case Status::not_a_number: return "not a number";
        case Status::out_of_range: return "out of range";
        case Status::shared: return "shared";
    }
    return "no status";
}

// The version of the library that runs, as PW_VERSION_NUMBER has that of the header.
[[nodiscard]] inline uint32_t version() noexcept { return pw_version(); }

enum class Structure : uint32_t { plain = PW_PLAIN, sap = PW_SAP, tree = PW_TREE, grid = PW_GRID, skin = PW_SKIN };

enum class Event : uint32_t { begin = PW_BEGIN, stay = PW_STAY, over = PW_OVER };

// Which side of a box, along an axis.
enum class Side : uint32_t { lower = PW_LOWER, upper = PW_UPPER };

[[nodiscard]] constexpr Event event_of(const pw_told& told) noexcept { return Event(told.event); }

// The handle of no box, stale in every world.
inline constexpr pw_handle no_handle{0xffffffffu, 0xffffffffu};

// How a box comes that nobody owns, that moves, and that every box sees, as pw_seen_by_all().
inline constexpr pw_new seen_by_all{{1u, 0xffffffffu}, {0u, 0u}};

// A value, or the status that says why there is none, in the form of std::expected of C++23. It has no value(), which would throw.
template <class Value>
class [[nodiscard]] Result {
    Value kept{};
    Status reason;

public:
    constexpr Result(const Value& value) noexcept : kept(value), reason(Status::ok) {}
    // Of a status that isn't ok.
    constexpr explicit Result(Status refusal) noexcept : reason(refusal) {}

    [[nodiscard]] constexpr bool has_value() const noexcept { return reason == Status::ok; }
    constexpr explicit operator bool() const noexcept { return has_value(); }
    // Why there is no value, and ok if there is one.
    constexpr Status error() const noexcept { return reason; }

    // If there is no value, this is one of zeros.
    [[nodiscard]] constexpr const Value& operator*() const noexcept { return kept; }
    [[nodiscard]] constexpr Value& operator*() noexcept { return kept; }
    constexpr const Value* operator->() const noexcept { return &kept; }
    constexpr Value* operator->() noexcept { return &kept; }
    [[nodiscard]] constexpr Value value_or(const Value& other) const noexcept { return has_value() ? kept : other; }
    constexpr operator std::optional<Value>() const noexcept { return has_value() ? std::optional<Value>(kept) : std::nullopt; }
};

// Items that stand one behind the other, as std::span of C++20: of a vector, an array, a std::span, or a pointer and a number; of
// items in braces too, if they are only read. An empty one leads to a place as well, since the library takes no null pointer.
template <class Item>
class Span {
    static inline std::remove_const_t<Item> nowhere{};
    Item* at;
    std::size_t length;

public:
    Span(Item* first, std::size_t count) noexcept : at(first ? first : &nowhere), length(first ? count : 0) {}
    template <class Items, class = std::enable_if_t<std::is_convertible_v<decltype(std::data(std::declval<Items&>())), Item*>>>
    Span(Items&& items) noexcept : Span(std::data(items), std::size(items)) {}
    // They live until the call has ended.
    template <class One, class = std::enable_if_t<std::is_convertible_v<const One*, Item*>>>
    Span(std::initializer_list<One> items) noexcept : Span(items.begin(), items.size()) {}

    [[nodiscard]] Item* data() const noexcept { return at; }
    [[nodiscard]] std::size_t size() const noexcept { return length; }
};

// How many items of a batch were done before it ended, and why it did. `done` is all of them if the status is ok.
struct [[nodiscard]] Batch {
    Status status;
    std::size_t done;
    explicit operator bool() const noexcept { return status == Status::ok; }
};

// How many there are, or were copied.
struct [[nodiscard]] Count {
    Status status;
    std::size_t count;
    explicit operator bool() const noexcept { return status == Status::ok; }
};

// The frame that an update ended.
struct [[nodiscard]] Frame {
    Status status;
    std::size_t pairs, events, changes;
    explicit operator bool() const noexcept { return status == Status::ok; }
};

// What the calls named try_ share: a value if its status is ok.
template <class Value>
Result<Value> result_of(pw_status status, const Value& value) noexcept {
    return status == PW_OK ? Result<Value>(value) : Result<Value>(Status(status));
}

// The least box in raw units that holds one of floats or doubles. Refused are a NaN, a number out of range, and a lower corner above the
// upper one: try_box_around tells which.
inline Result<pw_box> try_box_around(const float lo[3], const float hi[3]) noexcept {
    pw_box out{};
    pw_status status = pw_box_around(lo, hi, &out);
    return result_of(status, out);
}
inline Result<pw_box> try_box_around(const double lo[3], const double hi[3]) noexcept {
    pw_box out{};
    pw_status status = pw_box_around_double(lo, hi, &out);
    return result_of(status, out);
}
inline Result<pw_box> try_box_around(const std::array<float, 3>& lo, const std::array<float, 3>& hi) noexcept {
    return try_box_around(lo.data(), hi.data());
}
inline Result<pw_box> try_box_around(const std::array<double, 3>& lo, const std::array<double, 3>& hi) noexcept {
    return try_box_around(lo.data(), hi.data());
}
[[nodiscard]] inline std::optional<pw_box> box_around(const float lo[3], const float hi[3]) noexcept { return try_box_around(lo, hi); }
[[nodiscard]] inline std::optional<pw_box> box_around(const double lo[3], const double hi[3]) noexcept { return try_box_around(lo, hi); }
[[nodiscard]] inline std::optional<pw_box> box_around(const std::array<float, 3>& lo, const std::array<float, 3>& hi) noexcept {
    return try_box_around(lo, hi);
}
[[nodiscard]] inline std::optional<pw_box> box_around(const std::array<double, 3>& lo, const std::array<double, 3>& hi) noexcept {
    return try_box_around(lo, hi);
}

// The same, cut to the range: what is past an end of it, as an infinity, becomes that end. Refused are a NaN and a lower corner above the
// upper one.
inline Result<pw_box> try_box_around_cut(const float lo[3], const float hi[3]) noexcept {
    pw_box out{};
    pw_status status = pw_box_around_cut(lo, hi, &out);
    return result_of(status, out);
}
inline Result<pw_box> try_box_around_cut(const double lo[3], const double hi[3]) noexcept {
    pw_box out{};
    pw_status status = pw_box_around_cut_double(lo, hi, &out);
    return result_of(status, out);
}
inline Result<pw_box> try_box_around_cut(const std::array<float, 3>& lo, const std::array<float, 3>& hi) noexcept {
    return try_box_around_cut(lo.data(), hi.data());
}
inline Result<pw_box> try_box_around_cut(const std::array<double, 3>& lo, const std::array<double, 3>& hi) noexcept {
    return try_box_around_cut(lo.data(), hi.data());
}
[[nodiscard]] inline std::optional<pw_box> box_around_cut(const float lo[3], const float hi[3]) noexcept {
    return try_box_around_cut(lo, hi);
}
[[nodiscard]] inline std::optional<pw_box> box_around_cut(const double lo[3], const double hi[3]) noexcept {
    return try_box_around_cut(lo, hi);
}
[[nodiscard]] inline std::optional<pw_box> box_around_cut(const std::array<float, 3>& lo, const std::array<float, 3>& hi) noexcept {
    return try_box_around_cut(lo, hi);
}
[[nodiscard]] inline std::optional<pw_box> box_around_cut(const std::array<double, 3>& lo, const std::array<double, 3>& hi) noexcept {
    return try_box_around_cut(lo, hi);
}

// The nearest raw numbers that are at most, and at least, a float or a double.
inline Result<int32_t> try_fix_below(float number) noexcept {
    int32_t out = 0;
    pw_status status = pw_fix_below(number, &out);
    return result_of(status, out);
}
inline Result<int32_t> try_fix_above(float number) noexcept {
    int32_t out = 0;
    pw_status status = pw_fix_above(number, &out);
    return result_of(status, out);
}
inline Result<int32_t> try_fix_below(double number) noexcept {
    int32_t out = 0;
    pw_status status = pw_fix_below_double(number, &out);
    return result_of(status, out);
}
inline Result<int32_t> try_fix_above(double number) noexcept {
    int32_t out = 0;
    pw_status status = pw_fix_above_double(number, &out);
    return result_of(status, out);
}
[[nodiscard]] inline std::optional<int32_t> fix_below(float number) noexcept { return try_fix_below(number); }
[[nodiscard]] inline std::optional<int32_t> fix_above(float number) noexcept { return try_fix_above(number); }
[[nodiscard]] inline std::optional<int32_t> fix_below(double number) noexcept { return try_fix_below(number); }
[[nodiscard]] inline std::optional<int32_t> fix_above(double number) noexcept { return try_fix_above(number); }

// A live box with its handle.
struct Placed {
    pw_handle handle;
    pw_live live;
};

// Where a ray or a moved box meets a box, as pw_hit has it.
struct Hit : pw_hit {
    // How much of the way leads there: 0 where it begins, and 1 where it ends, which a ray goes on past.
    [[nodiscard]] double place() const noexcept { return pw_fraction(this); }
    // The axis of the side that it comes to, and which of the two sides: no value if the way begins in the box and comes in by none.
    [[nodiscard]] std::optional<std::pair<unsigned, Side>> face() const noexcept {
        if (axis == PW_NO_AXIS) return std::nullopt;
        return std::pair(unsigned(axis), Side(side));
    }
    // The direction that the side faces, of length 1: no value if there is no side.
    [[nodiscard]] std::optional<std::array<int, 3>> normal() const noexcept {
        if (axis == PW_NO_AXIS) return std::nullopt;
        std::array<int, 3> out{};
        out[axis] = side == PW_UPPER ? 1 : -1;
        return out;
    }
    // Whether there is a box: a place of ray_first_each or cast_first_each has no box if nothing is met.
    [[nodiscard]] bool has_box() const noexcept { return pw_has_hit(this) != 0; }
};
// The library fills a list of them as one of pw_hit.
static_assert(sizeof(Hit) == sizeof(pw_hit) && std::is_standard_layout_v<Hit>);

// The calls of C that ask and read a world, and those that do so by a reader.
template <class Words>
struct Calls;
template <>
struct Calls<pw_world> {
    static constexpr auto hits = pw_hits;
    static constexpr auto ray_hits = pw_ray_hits;
    static constexpr auto cast_hits = pw_cast_hits;
    static constexpr auto nearest = pw_nearest;
    static constexpr auto nearest_box = pw_nearest_box;
    static constexpr auto hits_each = pw_hits_each;
    static constexpr auto ray_first = pw_ray_first;
    static constexpr auto cast_first = pw_cast_first;
    static constexpr auto ray_first_each = pw_ray_first_each;
    static constexpr auto cast_first_each = pw_cast_first_each;
    static constexpr auto ray_meets = pw_ray_meets;
    static constexpr auto cast_meets = pw_cast_meets;
    static constexpr auto square_to = pw_square_to;
    static constexpr auto square_apart = pw_square_apart;
    static constexpr auto get = pw_get;
    static constexpr auto at = pw_at;
    static constexpr auto pairs = pw_pairs;
    static constexpr auto events = pw_events;
    static constexpr auto changes = pw_changes;
    static constexpr auto info = pw_info;
};
template <>
struct Calls<pw_reader> {
    static constexpr auto hits = pw_reader_hits;
    static constexpr auto ray_hits = pw_reader_ray_hits;
    static constexpr auto cast_hits = pw_reader_cast_hits;
    static constexpr auto nearest = pw_reader_nearest;
    static constexpr auto nearest_box = pw_reader_nearest_box;
    static constexpr auto hits_each = pw_reader_hits_each;
    static constexpr auto ray_first = pw_reader_ray_first;
    static constexpr auto cast_first = pw_reader_cast_first;
    static constexpr auto ray_first_each = pw_reader_ray_first_each;
    static constexpr auto cast_first_each = pw_reader_cast_first_each;
    static constexpr auto ray_meets = pw_reader_ray_meets;
    static constexpr auto cast_meets = pw_reader_cast_meets;
    static constexpr auto square_to = pw_reader_square_to;
    static constexpr auto square_apart = pw_reader_square_apart;
    static constexpr auto get = pw_reader_get;
    static constexpr auto at = pw_reader_at;
    static constexpr auto pairs = pw_reader_pairs;
    static constexpr auto events = pw_reader_events;
    static constexpr auto changes = pw_reader_changes;
    static constexpr auto info = pw_reader_info;
};

// The questions, which a World and a Reader answer alike. They are const, and several threads may ask one of them at once. A call of C
// takes what it asks out of its two words and puts it back, so a lock is held for the whole of each call, and threads take turns. If
// nobody else asks that costs little. Readers, one for each thread, are for asking side by side.
template <class Asked, class Words>
class Questions {
    using Call = Calls<Words>;
    mutable std::mutex turn;

protected:
    Questions() = default;
    // The lock stays where it is: whatever is moved is in no call.
    Questions(Questions&&) noexcept {}
    Questions& operator=(Questions&&) noexcept { return *this; }
    ~Questions() = default;

    // What a call of C comes to that asks the two words.
    template <class... Parameters, class... Given>
    pw_status ask(pw_status (*call)(Words*, Parameters...), Given... given) const noexcept {
        std::lock_guard lock(turn);
        return call(static_cast<const Asked*>(this)->words(), given...);
    }

public:
    // Each tells how many boxes there are, which may be more than there was room for.
    Count hits(const pw_query& query, Span<pw_handle> out) const noexcept {
        Count found{};
        found.status = Status(ask(Call::hits, &query, out.data(), out.size(), &found.count));
        return found;
    }
    Count ray_hits(const pw_ray& ray, Span<pw_handle> out) const noexcept {
        Count found{};
        found.status = Status(ask(Call::ray_hits, &ray, out.data(), out.size(), &found.count));
        return found;
    }
    Count cast_hits(const pw_cast& cast, Span<pw_handle> out) const noexcept {
        Count found{};
        found.status = Status(ask(Call::cast_hits, &cast, out.data(), out.size(), &found.count));
        return found;
    }
    Count nearest(const pw_near& near_to, Span<pw_handle> out) const noexcept {
        Count found{};
        found.status = Status(ask(Call::nearest, &near_to, out.data(), out.size(), &found.count));
        return found;
    }
    // Those that are nearest to a box, of those whose squared distance from it is at least `from`.
    Count nearest_box(const pw_near_box& near_to, Span<pw_handle> out) const noexcept {
        Count found{};
        found.status = Status(ask(Call::nearest_box, &near_to, out.data(), out.size(), &found.count));
        return found;
    }

    // Many questions at once, in order up to the first that is refused: how many were answered, and why the next one wasn't. Answer k of
    // hits_each is in `out` from ends[k - 1], or 0, to before ends[k].
    Batch hits_each(Span<const pw_query> queries, Span<pw_handle> out, Span<std::size_t> ends) const noexcept {
        Batch batch{};
        batch.status = Status(ask(Call::hits_each, queries.data(), queries.size(), out.data(), out.size(), ends.data(), ends.size(),
                                              &batch.done));
        return batch;
    }
    // Each first hit at its place, which has no box if nothing is met.
    Batch ray_first_each(Span<const pw_ray> rays, Span<Hit> out) const noexcept {
        Batch batch{};
        batch.status = Status(ask(Call::ray_first_each, rays.data(), rays.size(), out.data(), out.size(), &batch.done));
        return batch;
    }
    Batch cast_first_each(Span<const pw_cast> casts, Span<Hit> out) const noexcept {
        Batch batch{};
        batch.status = Status(ask(Call::cast_first_each, casts.data(), casts.size(), out.data(), out.size(), &batch.done));
        return batch;
    }

    // What a ray, and a moved box, meets first, and where: no value in the result if it meets no box.
    Result<std::optional<Hit>> try_ray_first(const pw_ray& ray) const noexcept {
        Hit hit{};
        std::size_t count;
        pw_status status = ask(Call::ray_first, &ray, &hit, &count);
        return result_of(status, count > 0 ? std::optional(hit) : std::nullopt);
    }
    Result<std::optional<Hit>> try_cast_first(const pw_cast& cast) const noexcept {
        Hit hit{};
        std::size_t count;
        pw_status status = ask(Call::cast_first, &cast, &hit, &count);
        return result_of(status, count > 0 ? std::optional(hit) : std::nullopt);
    }
    // The same, and no value also if the call is refused.
    [[nodiscard]] std::optional<Hit> ray_first(const pw_ray& ray) const noexcept { return *try_ray_first(ray); }
    [[nodiscard]] std::optional<Hit> cast_first(const pw_cast& cast) const noexcept { return *try_cast_first(cast); }
    // Where a ray, and a moved box, meets one live box, whatever groups it asks for: no value in the result if it doesn't meet it.
    Result<std::optional<Hit>> try_ray_meets(const pw_ray& ray, pw_handle handle) const noexcept {
        Hit hit{};
        std::size_t count;
        pw_status status = ask(Call::ray_meets, &ray, handle, &hit, &count);
        return result_of(status, count > 0 ? std::optional(hit) : std::nullopt);
    }
    Result<std::optional<Hit>> try_cast_meets(const pw_cast& cast, pw_handle handle) const noexcept {
        Hit hit{};
        std::size_t count;
        pw_status status = ask(Call::cast_meets, &cast, handle, &hit, &count);
        return result_of(status, count > 0 ? std::optional(hit) : std::nullopt);
    }
    // The same, and no value also if the call is refused.
    [[nodiscard]] std::optional<Hit> ray_meets(const pw_ray& ray, pw_handle handle) const noexcept { return *try_ray_meets(ray, handle); }
    [[nodiscard]] std::optional<Hit> cast_meets(const pw_cast& cast, pw_handle handle) const noexcept {
        return *try_cast_meets(cast, handle);
    }
    // The square of the distance of a place, and of a box, from a live box, exactly; pw_squared makes a double of it.
    Result<pw_square> try_square_to(const pw_point& at, pw_handle handle) const noexcept {
        pw_square square{};
        pw_status status = ask(Call::square_to, &at, handle, &square);
        return result_of(status, square);
    }
    Result<pw_square> try_square_apart(const pw_box& body, pw_handle handle) const noexcept {
        pw_square square{};
        pw_status status = ask(Call::square_apart, &body, handle, &square);
        return result_of(status, square);
    }
    [[nodiscard]] std::optional<pw_square> square_to(const pw_point& at, pw_handle handle) const noexcept {
        return try_square_to(at, handle);
    }
    [[nodiscard]] std::optional<pw_square> square_apart(const pw_box& body, pw_handle handle) const noexcept {
        return try_square_apart(body, handle);
    }
    // The box that a ray meets first, and no value if it meets no box.
    Result<std::optional<pw_handle>> try_first_hit(const pw_ray& ray) const noexcept {
        auto hit = try_ray_first(ray);
        return result_of(pw_status(hit.error()), *hit ? std::optional((*hit)->handle) : std::nullopt);
    }
    // The same, and no value also if nothing is open to be asked or memory ran out.
    [[nodiscard]] std::optional<pw_handle> first_hit(const pw_ray& ray) const noexcept { return *try_first_hit(ray); }

    // What is told without a search: a live box, by its handle and by its slot.
    Result<pw_live> try_get(pw_handle handle) const noexcept {
        pw_live live{};
        pw_status status = ask(Call::get, handle, &live);
        return result_of(status, live);
    }
    [[nodiscard]] std::optional<pw_live> get(pw_handle handle) const noexcept { return try_get(handle); }

    Result<Placed> try_at(uint32_t slot) const noexcept {
        Placed placed{};
        pw_status status = ask(Call::at, slot, &placed.handle, &placed.live);
        return result_of(status, placed);
    }
    [[nodiscard]] std::optional<Placed> at(uint32_t slot) const noexcept { return try_at(slot); }

    // The pairs of the last frame from a number on, as many as there is room for, and how many those are.
    Count pairs(std::size_t from, Span<pw_pair> out) const noexcept {
        Count copied{};
        copied.status = Status(ask(Call::pairs, from, out.data(), out.size(), &copied.count));
        return copied;
    }
    Count events(std::size_t from, Span<pw_told> out) const noexcept {
        Count copied{};
        copied.status = Status(ask(Call::events, from, out.data(), out.size(), &copied.count));
        return copied;
    }
    // The same without the pairs that stayed, for which no step is taken.
    Count changes(std::size_t from, Span<pw_told> out) const noexcept {
        Count copied{};
        copied.status = Status(ask(Call::changes, from, out.data(), out.size(), &copied.count));
        return copied;
    }
    // What the world is. Refused if it is closed.
    Result<pw_world_info> try_info() const noexcept {
        pw_world_info info{};
        pw_status status = ask(Call::info, &info);
        return result_of(status, info);
    }
    [[nodiscard]] std::optional<pw_world_info> info() const noexcept { return try_info(); }
};

class Reader;

// A world, which is closed when it ends. It can be moved and not copied; what it was moved from is a closed world. It is asked by
// `Questions` and by the const calls below, by several threads at once if they may take turns, and by Readers if they may not.
class World : public Questions<World, pw_world> {
    friend class Reader;
    friend class Questions<World, pw_world>;
    // A question takes the world out of its words and puts it back.
    mutable pw_world world = PW_WORLD_INIT;
    Status opened = Status::closed;

    pw_world* words() const noexcept { return &world; }

public:
    World() = default;
    // An open world, or a closed one if memory ran out: `status` tells.
    explicit World(Structure structure) noexcept { static_cast<void>(open(structure)); }
    ~World() { pw_close(&world); }
    World(World&& other) noexcept
        : Questions(std::move(other)),
          world(std::exchange(other.world, PW_WORLD_INIT)),
          opened(std::exchange(other.opened, Status::closed)) {}
    World& operator=(World&& other) noexcept {
        World taken(std::move(other));
        std::swap(world, taken.world);
        std::swap(opened, taken.opened);
        return *this;
    }

    // An open world that would be opened stays open.
    Status open(Structure structure) noexcept {
        Status status = Status(pw_open(&world, uint32_t(structure)));
        if (!is_open()) opened = status;
        return status;
    }
    Status close() noexcept {
        opened = Status::closed;
        return Status(pw_close(&world));
    }
    // ok if the world is open, else why it isn't: what the last `open` or the constructor came to, or closed.
    Status status() const noexcept { return opened; }
    [[nodiscard]] bool is_open() const noexcept { return opened == Status::ok; }
    // For calls of pungwelair.h, except pw_open and pw_close, which take no lock. It is this world's, not another.
    [[nodiscard]] pw_world* native() noexcept { return &world; }

    Batch add(Span<const pw_box> boxes, const pw_new& how, Span<pw_handle> out) noexcept {
        Batch batch{};
        batch.status = Status(pw_add(&world, boxes.data(), boxes.size(), &how, out.data(), out.size(), &batch.done));
        return batch;
    }
    Result<pw_handle> try_add(const pw_box& box, const pw_new& how = seen_by_all) noexcept {
        pw_handle handle{};
        std::size_t done;
        pw_status status = pw_add(&world, &box, 1, &how, &handle, 1, &done);
        return result_of(status, handle);
    }
    [[nodiscard]] std::optional<pw_handle> add(const pw_box& box, const pw_new& how = seen_by_all) noexcept { return try_add(box, how); }
    Batch move(Span<const pw_handle> handles, Span<const pw_box> boxes) noexcept {
        Batch batch{};
        batch.status = Status(pw_move(&world, handles.data(), handles.size(), boxes.data(), boxes.size(), &batch.done));
        return batch;
    }
    Status move(pw_handle handle, const pw_box& box) noexcept { return move({&handle, 1}, {&box, 1}).status; }
    Status mask(pw_handle handle, pw_masks masks) noexcept { return Status(pw_mask(&world, handle, masks)); }
    Status regroup(pw_handle handle, pw_group group) noexcept { return Status(pw_regroup(&world, handle, group)); }
    Batch remove(Span<const pw_handle> handles) noexcept {
        Batch batch{};
        batch.status = Status(pw_remove(&world, handles.data(), handles.size(), &batch.done));
        return batch;
    }
    Status remove(pw_handle handle) noexcept { return remove({&handle, 1}).status; }
    class Boxes;
    // All live boxes, by their slots, for a loop: no box of a closed world. The loop may change the world, since each slot is read when its
    // turn comes.
    [[nodiscard]] Boxes boxes() const noexcept;

    Frame update() noexcept {
        pw_counts counts{};
        Status status = Status(pw_update(&world, &counts));
        return {status, counts.pairs, counts.events, counts.changes};
    }
    // The pairs that the frame would have if it ended now. It tells how many there are, whatever `from` is, which may be more than there
    // was room for.
    Count pairs_now(std::size_t from, Span<pw_pair> out) const noexcept {
        Count found{};
        found.status = Status(ask(pw_pairs_now, from, out.data(), out.size(), &found.count));
        return found;
    }

    // Gives the world to a reader that reads none, which is opened if it isn't. From then on this one is closed, and readers ask: the last
    // that leaves has the world. Refused are a closed world and a reader that reads; it is also refused if memory runs out. Then all is
    // as before.
    Status share(Reader& reader) noexcept;

    Status mark() noexcept { return Status(pw_mark(&world)); }
    // Gives up the oldest marks.
    Status forget(uint32_t count = 1) noexcept { return Status(pw_forget(&world, count)); }
    Status back() noexcept { return Status(pw_back(&world)); }
};

class World::Boxes {
    const World* world;

public:
    class Iterator {
        const World* world;
        uint32_t slot;
        Placed placed{};

        // The first live box from the slot on.
        void seek() noexcept {
            for (; slot < PW_SLOTS; slot++)
                if (auto found = world->at(slot)) {
                    placed = *found;
                    return;
                }
        }

    public:
        using iterator_category = std::input_iterator_tag;
        using value_type = Placed;
        using difference_type = std::ptrdiff_t;
        using pointer = const Placed*;
        using reference = const Placed&;

        Iterator(const World* asked, uint32_t from) noexcept : world(asked), slot(from) { seek(); }
        const Placed& operator*() const noexcept { return placed; }
        const Placed* operator->() const noexcept { return &placed; }
        Iterator& operator++() noexcept {
            slot++;
            seek();
            return *this;
        }
        Iterator operator++(int) noexcept {
            Iterator before = *this;
            ++*this;
            return before;
        }
        bool operator==(const Iterator& other) const noexcept { return slot == other.slot; }
        bool operator!=(const Iterator& other) const noexcept { return slot != other.slot; }
    };

    explicit Boxes(const World* asked) noexcept : world(asked) {}
    [[nodiscard]] Iterator begin() const noexcept { return {world, 0}; }
    [[nodiscard]] Iterator end() const noexcept { return {world, PW_SLOTS}; }
};
inline World::Boxes World::boxes() const noexcept { return Boxes(this); }

// One of those that ask one world at once, each on a thread of its own, by `Questions`. It can be moved and not copied; what it was moved
// from is a closed reader. At its end it leaves, and a world whose last reader it was is closed with it.
//
//     std::vector<pungwelair::Reader> readers(4);      // kept from tick to tick, with the room for answers that they have
//     auto shared = world.share(readers[0]);           // ok
//     for (std::size_t k = 1; k < 4; k++) shared = readers[k].join(readers[0]);
//     ask_in_jobs(readers);                            // readers[k].ray_first(ray), one thread each; wait for all of them
//     for (auto& reader : readers)
//         if (auto back = reader.leave()) world = std::move(*back);   // the last one has it
class Reader : public Questions<Reader, pw_reader> {
    friend class World;
    friend class Questions<Reader, pw_reader>;
    mutable pw_reader reader = PW_READER_INIT;
    bool opened = false, reading = false;

    pw_reader* words() const noexcept { return &reader; }

    // What a call came to by which it reads.
    Status reads(pw_status status) noexcept {
        if (status == PW_OK) reading = true;
        return Status(status);
    }

public:
    // A closed reader, which takes no memory: what makes it read opens it.
    Reader() = default;
    ~Reader() { static_cast<void>(leave()), pw_reader_close(&reader); }
    Reader(Reader&& other) noexcept
        : Questions(std::move(other)),
          reader(std::exchange(other.reader, PW_READER_INIT)),
          opened(std::exchange(other.opened, false)),
          reading(std::exchange(other.reading, false)) {}
    Reader& operator=(Reader&& other) noexcept {
        Reader taken(std::move(other));
        std::swap(reader, taken.reader);
        std::swap(opened, taken.opened);
        std::swap(reading, taken.reading);
        return *this;
    }

    // An open reader stays open, and that is refused. It reads no world yet.
    Status open() noexcept {
        pw_status status = pw_reader_open(&reader);
        if (status == PW_OK) opened = true;
        return Status(status);
    }
    // Gives up its room for answers. Refused while it reads a world.
    Status close() noexcept {
        pw_status status = pw_reader_close(&reader);
        if (status == PW_OK) opened = false;
        return Status(status);
    }
    [[nodiscard]] bool is_open() const noexcept { return opened; }
    [[nodiscard]] bool is_reading() const noexcept { return reading; }
    // For questions of pungwelair.h, which take no lock. It is this reader's, not another.
    [[nodiscard]] pw_reader* native() noexcept { return &reader; }

    // Reads from now on what another reads, which is in no other call meanwhile. It is opened if it isn't. Refused are one that reads, and
    // another that doesn't.
    Status join(Reader& other) noexcept {
        if (!other.reading) return Status::closed;
        // It may be the other itself, which the library takes no two pointers to.
        if (reading) return Status::shared;
        if (!opened)
            if (Status status = open(); status != Status::ok) return status;
        return reads(pw_join(&other.reader, &reader));
    }
    // Reads no world from now on. ok: it was the last that read its world, which is open again in `world`. shared: others read on, and
    // `world` stays closed. Refused if `world` is open, or if this reads none. Readers that leave at once give a World of their own each.
    Status leave(World& world) noexcept {
        pw_status status = pw_unshare(&reader, &world.world);
        if (status == PW_OK || status == PW_SHARED) reading = false;
        if (status == PW_OK) world.opened = Status::ok;
        return Status(status);
    }
    // The same: the world, if this was the last that read it. If you drop it, it is closed.
    [[nodiscard]] std::optional<World> leave() noexcept {
        World world;
        if (leave(world) != Status::ok) return std::nullopt;
        return world;
    }
};

inline Status World::share(Reader& reader) noexcept {
    if (!is_open()) return Status::closed;
    if (!reader.opened)
        if (Status status = reader.open(); status != Status::ok) return status;
    Status status = reader.reads(pw_share(&world, &reader.reader));
    if (status == Status::ok) opened = Status::closed;
    return status;
}

// What the operators below compare: a handle by its slot and then its generation, a pair by its handles, a box by its corners.
namespace compared {

constexpr uint64_t key_of(const pw_handle& handle) noexcept { return uint64_t(handle.slot) << 32 | handle.generation; }
constexpr auto key_of(const pw_pair& pair) noexcept { return std::pair(key_of(pair.a), key_of(pair.b)); }
constexpr auto key_of(const pw_point& point) noexcept { return std::pair(std::pair(point.x, point.y), point.z); }
constexpr auto key_of(const pw_box& box) noexcept { return std::pair(key_of(box.lo), key_of(box.hi)); }

template <class Value>
inline constexpr bool has_order = std::is_same_v<Value, pw_handle> || std::is_same_v<Value, pw_pair>;
template <class Value>
inline constexpr bool has_equality = has_order<Value> || std::is_same_v<Value, pw_point> || std::is_same_v<Value, pw_box>;

// Bits that differ anywhere differ in the low ones too (the last steps of SplitMix64).
constexpr uint64_t mixed(uint64_t bits) noexcept {
    bits = (bits ^ bits >> 30) * 0xbf58476d1ce4e5b9u;
    bits = (bits ^ bits >> 27) * 0x94d049bb133111ebu;
    return bits ^ bits >> 31;
}

}  // namespace compared
}  // namespace pungwelair

// The structs of C are global, so their operators are too: there a look-up by arguments finds them, that of std's algorithms as well.
// They are templates, so that a program's own operator for the same struct is preferred and nothing is ambiguous.
template <class Value>
constexpr std::enable_if_t<pungwelair::compared::has_equality<Value>, bool> operator==(const Value& a, const Value& b) noexcept {
    return pungwelair::compared::key_of(a) == pungwelair::compared::key_of(b);
}
template <class Value>
constexpr std::enable_if_t<pungwelair::compared::has_equality<Value>, bool> operator!=(const Value& a, const Value& b) noexcept {
    return !(a == b);
}
template <class Value>
constexpr std::enable_if_t<pungwelair::compared::has_order<Value>, bool> operator<(const Value& a, const Value& b) noexcept {
    return pungwelair::compared::key_of(a) < pungwelair::compared::key_of(b);
}
template <class Value>
constexpr std::enable_if_t<pungwelair::compared::has_order<Value>, bool> operator>(const Value& a, const Value& b) noexcept {
    return b < a;
}
template <class Value>
constexpr std::enable_if_t<pungwelair::compared::has_order<Value>, bool> operator<=(const Value& a, const Value& b) noexcept {
    return !(b < a);
}
template <class Value>
constexpr std::enable_if_t<pungwelair::compared::has_order<Value>, bool> operator>=(const Value& a, const Value& b) noexcept {
    return !(a < b);
}

template <>
struct std::hash<pw_handle> {
    std::size_t operator()(const pw_handle& handle) const noexcept {
        return std::size_t(pungwelair::compared::mixed(pungwelair::compared::key_of(handle)));
    }
};
template <>
struct std::hash<pw_pair> {
    std::size_t operator()(const pw_pair& pair) const noexcept {
        using namespace pungwelair::compared;
        return std::size_t(mixed(mixed(key_of(pair.a)) + key_of(pair.b)));
    }
};

#endif
