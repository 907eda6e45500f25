// Pools that are not sound, made to keep the check busy as long as possible.
#pragma once

#include <functional>
#include <string>
#include <vector>

using Words = std::vector<int32_t>;

// What is wrong with a pool, and the damage that makes it so.
struct Damage {
    std::string name;
    std::function<void(Words &)> done;
};

// The place of a slot's first word.
inline size_t slot_at(size_t slot) { return 8 + 42 * (slot - 1); }

inline size_t last_slot(const Words &pool) { return (pool.size() - 8) / 42; }

// An inner node of level 2 with three entries that lead to one child, whatever that is.
inline void put_parent(Words &pool, size_t slot, size_t child) {
    int32_t *node = &pool[slot_at(slot)];
    node[0] = 2;
    node[1] = 3;
    for (size_t e = 0; e < 3; ++e) node[2 + 5 * e + 4] = static_cast<int32_t>(child);
}

// A leaf of eight records, each a point.
inline void put_leaf(Words &pool, size_t slot) {
    int32_t *node = &pool[slot_at(slot)];
    std::fill(node, node + 42, 0);
    node[0] = 1;
    node[1] = 8;
    for (size_t e = 0; e < 8; ++e) node[2 + 5 * e + 4] = 1;
}

inline std::vector<Damage> damages() {
    return {
        {"one record too many in the head", [](Words &p) { ++p[3]; }},
        {"the last word of the last slot is not zero", [](Words &p) { p.back() = 1; }},
        {"two detached nodes that are each other's child",
         [](Words &p) {
             const size_t last = last_slot(p);
             put_parent(p, last, last - 1);
             put_parent(p, last - 1, last);
         }},
        {"the root's last child is its first",
         [](Words &p) {
             int32_t *root = &p[slot_at(static_cast<size_t>(p[1]))];
             std::copy_n(root + 2, 5, root + 2 + 5 * (root[1] - 1));
         }},
        {"every slot that was free is a leaf",
         [](Words &p) {
             for (size_t s = 1; s <= last_slot(p); ++s) {
                 if (p[slot_at(s)] == 0) put_leaf(p, s);
             }
         }},
        {"every slot is a leaf, and the root one of them",
         [](Words &p) {
             p[2] = 1;
             for (size_t s = 1; s <= last_slot(p); ++s) put_leaf(p, s);
         }},
        {"the tree's height is one more", [](Words &p) { ++p[2]; }},
    };
}
