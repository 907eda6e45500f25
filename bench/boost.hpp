// The R-tree of Boost.Geometry with the same split and the same node sizes, where its headers are installed.
#pragma once

#if __has_include(<boost/geometry/index/rtree.hpp>)
#define HAVE_BOOST 1

#include <algorithm>
#include <boost/geometry.hpp>
#include <boost/geometry/index/rtree.hpp>
#include <iterator>
#include <memory>
#include <tuple>

#include "map.hpp"

// Bytes held by all trees at the moment.
inline size_t bytes_held = 0;

template <class T> struct Counting {
    using value_type = T;
    Counting() = default;
    template <class U> Counting(const Counting<U> &) {}

    T *allocate(size_t n) {
        bytes_held += n * sizeof(T);
        return std::allocator<T>().allocate(n);
    }

    void deallocate(T *p, size_t n) {
        bytes_held -= n * sizeof(T);
        std::allocator<T>().deallocate(p, n);
    }

    template <class U> bool operator==(const Counting<U> &) const { return true; }
    template <class U> bool operator!=(const Counting<U> &) const { return false; }
};

// Bare: what the tree does by itself. Same: the map's job as well, which asks for the exact pair before an insert, for both before an update,
// and gives what a search finds in found order.
enum class Job { bare, same };

class Boost {
    using Point = boost::geometry::model::point<int32_t, 2, boost::geometry::cs::cartesian>;
    using Box = boost::geometry::model::box<Point>;
    using Value = std::pair<Box, int32_t>;
    using Tree = boost::geometry::index::rtree<Value, boost::geometry::index::quadratic<8, 3>,
                                               boost::geometry::index::indexable<Value>,
                                               boost::geometry::index::equal_to<Value>, Counting<Value>>;

public:
    // It has no batches.
    void run(const Requests &requests, Job job) {
        for (const dustmap_request &r : requests) one(r, job);
    }

    Shown shown(const Requests &requests) {
        Shown shown;
        for (const dustmap_request &r : requests) {
            one(r, Job::same);
            if (r.kind != DUSTMAP_SEARCH) continue;
            for (const Value &v : found) shown.add(v.second);
        }
        return shown;
    }

    size_t records() const { return tree.size(); }
    size_t refused() const { return refusals; }

private:
    static Box box(const dustmap_rect &r) { return {{r.low_x, r.low_y}, {r.high_x, r.high_y}}; }

    static auto corners(const Value &v) {
        const Point &low = v.first.min_corner(), &high = v.first.max_corner();
        return std::make_tuple(low.get<0>(), low.get<1>(), high.get<0>(), high.get<1>());
    }

    // Found order. The numbers decide for most.
    static bool before(const Value &a, const Value &b) {
        return a.second != b.second ? a.second < b.second : corners(a) < corners(b);
    }

    // Where the pair is not held as often as it should be, the map would refuse.
    void ask(const Value &v, size_t held) { refusals += tree.count(v) != held; }

    void one(const dustmap_request &r, Job job) {
        const Value first{box(r.first), r.number}, second{box(r.second), r.number};
        switch (r.kind) {
        case DUSTMAP_INSERT:
            if (job == Job::same) ask(first, 0);
            tree.insert(first);
            break;
        case DUSTMAP_DELETE: tree.remove(first); break;
        case DUSTMAP_UPDATE:
            if (job == Job::same) ask(first, 1), ask(second, 0);
            tree.remove(first);
            tree.insert(second);
            break;
        default: find(first.first, job);
        }
    }

    void find(const Box &window, Job job) {
        found.clear();
        tree.query(boost::geometry::index::intersects(window), std::back_inserter(found));
        if (job == Job::bare) return;
        std::sort(found.begin(), found.end(), before);
    }

    size_t refusals = 0;
    Tree tree;
    std::vector<Value> found;
};

#else
#define HAVE_BOOST 0
#endif
