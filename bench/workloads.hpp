// The requests to be timed, drawn from a fixed seed and done by both.
#pragma once

#include <cmath>
#include <cstdint>
#include <string>
#include <utility>
#include <vector>

#include "dustmap.h"

using Requests = std::vector<dustmap_request>;

// splitmix64: the same numbers from the same seed everywhere.
class Dice {
public:
    explicit Dice(uint64_t seed) : state(seed) {}

    // A number from low to high, both included.
    int32_t between(int32_t low, int32_t high) {
        return low + static_cast<int32_t>(next() % static_cast<uint64_t>(int64_t{high} - low + 1));
    }

private:
    uint64_t next() {
        uint64_t z = state += 0x9E3779B97F4A7C15;
        z = (z ^ (z >> 30)) * 0xBF58476D1CE4E5B9;
        z = (z ^ (z >> 27)) * 0x94D049BB133111EB;
        return z ^ (z >> 31);
    }

    uint64_t state;
};

constexpr int32_t reach = 1'000'000; // the site is a square from -reach to reach, two kilometres wide
constexpr int32_t widest = 20'000;   // a record is at most twenty metres wide

inline dustmap_rect square(Dice &dice, int32_t side) {
    const int32_t x = dice.between(-reach, reach - side), y = dice.between(-reach, reach - side);
    return {x, y, x + side, y + side};
}

inline dustmap_found record(Dice &dice, int32_t number) {
    const int32_t x = dice.between(-reach, reach), y = dice.between(-reach, reach);
    return {number, {x, y, x + dice.between(0, widest), y + dice.between(0, widest)}};
}

inline dustmap_request insert(const dustmap_found &r) { return {DUSTMAP_INSERT, r.number, r.rect, {}}; }
inline dustmap_request remove(const dustmap_found &r) { return {DUSTMAP_DELETE, r.number, r.rect, {}}; }
inline dustmap_request search(const dustmap_rect &window) { return {DUSTMAP_SEARCH, 0, window, {}}; }

// The records in force while requests are drawn, so that every request is accepted.
class Site {
public:
    explicit Site(uint64_t seed) : dice(seed) {}

    dustmap_request add() {
        records.push_back(record(dice, ++last));
        return insert(records.back());
    }

    dustmap_request take() {
        std::swap(records[any()], records.back());
        const dustmap_request request = remove(records.back());
        records.pop_back();
        return request;
    }

    dustmap_request move() {
        dustmap_found &r = records[any()];
        const dustmap_rect old = std::exchange(r.rect, record(dice, 0).rect);
        return {DUSTMAP_UPDATE, r.number, old, r.rect};
    }

    dustmap_request look(int32_t side) { return search(square(dice, side)); }

    dustmap_request any_kind(int32_t side) {
        switch (dice.between(1, 5)) {
        case 1: return add();
        case 2: return take();
        case 3: return move();
        default: return look(side);
        }
    }

private:
    size_t any() { return static_cast<size_t>(dice.between(0, static_cast<int32_t>(records.size()) - 1)); }

    Dice dice;
    std::vector<dustmap_found> records;
    int32_t last = 0;
};

// Requests to be timed, over what other requests have left.
struct Workload {
    std::string name;
    Requests before;
    Requests timed;
};

constexpr size_t workload_count = 6;

// The side of a window that meets about so many of the records.
inline int32_t side_for(double found, int records) {
    return static_cast<int32_t>(2.0 * reach * std::sqrt(found / records)) - widest / 2;
}

// A workload: the records are inserted, then requests are drawn by `draw`.
template <class Draw> Workload workload(const char *name, uint64_t seed, int records, int count, Draw draw) {
    Site site(seed);
    Workload w{name, {}, {}};
    for (int k = 0; k < records; ++k) w.before.push_back(site.add());
    for (int k = 0; k < count; ++k) w.timed.push_back(draw(site));
    return w;
}

// The workloads for a map of so many records. `changes` records are inserted or deleted; the pool has no room for more.
inline std::vector<Workload> workloads(uint64_t seed, int records, int changes) {
    const int most = 1'024;
    const int32_t few = side_for(5, records), many = side_for(records / 20.0, records);
    return {
        workload("insert", seed, records - changes, changes, [](Site &s) { return s.add(); }),
        workload("search, about 5 found", seed, records, most, [=](Site &s) { return s.look(few); }),
        workload("search, 5 in 100 found", seed, records, most, [=](Site &s) { return s.look(many); }),
        workload("delete", seed, records, changes, [](Site &s) { return s.take(); }),
        workload("update", seed, records, most, [](Site &s) { return s.move(); }),
        workload("mixed", seed, records, most, [=](Site &s) { return s.any_kind(few); }),
    };
}
