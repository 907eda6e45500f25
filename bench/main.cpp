// Times the proved map beside Boost.Geometry's R-tree, on the same requests in the same run. Prints tables.

#include <algorithm>
#include <chrono>
#include <cstdio>
#include <limits>

#include "boost.hpp"
#include "hostile.hpp"
#include "map.hpp"
#include "workloads.hpp"

// A pool, the records that it is given (it has room for some more), and how many of them are inserted or deleted in a batch. All but the
// smallest and the largest are there to show how times grow.
struct Size {
    size_t slots;
    int records, changes;
    bool all_shown;
};

constexpr Size sizes[] = {{128, 400, 200, true}, {512, 1'700, 800, false}, {2'048, 7'000, 1'024, false}, {4'096, 14'000, 1'024, true}};

// Every run has a site and requests of its own, drawn from a seed of its own: what is done again and again is learnt by the processor, which
// then guesses every branch of it right, and no map in use is asked the same batch again and again.
constexpr uint64_t first_seed = 1984;
constexpr uint64_t runs = 25;

// Calls with no request are the same again and again.
constexpr int times = 7;

// How often a batch is run that is to be learnt.
constexpr int lessons = 300;

// One at a time, the call costs far more than the request, and the same for each, so a part of them will do.
constexpr size_t eighth = 8;

// Calls with no request: as many as the longest workload has with a batch of 1.
constexpr size_t empty_calls = Map::most / eighth;

using Clock = std::chrono::steady_clock;

// One run, in microseconds, over a copy.
template <class State, class Run> double took(State state, Run run) {
    const auto began = Clock::now();
    run(state);
    return std::chrono::duration<double, std::micro>(Clock::now() - began).count();
}

// The least time of several runs, since anything else that runs at the time can only add.
template <class State, class Run> double least(int count, const State &start, Run run) {
    double best = std::numeric_limits<double>::infinity();
    for (int k = 0; k < count; ++k) best = std::min(best, took(start, run));
    return best;
}

// Of several runs that differ, the one in the middle.
double middle(std::vector<double> all) {
    std::nth_element(all.begin(), all.begin() + static_cast<std::ptrdiff_t>(all.size() / 2), all.end());
    return all[all.size() / 2];
}

// Boost's time per request of a workload, bare and with the map's whole job. Both are negative where Boost is not there.
struct BoostTimes {
    double bare = -1, same = -1;
};

#if HAVE_BOOST
// .. once the processor has learnt the batch.
BoostTimes learnt_boost_times(const Workload &w) {
    Boost start;
    start.run(w.before, Job::bare);
    const auto time = [&](Job job) {
        return least(lessons, start, [&](Boost &b) { b.run(w.timed, job); }) / static_cast<double>(w.timed.size());
    };
    return {time(Job::bare), time(Job::same)};
}

// .. after a check that both maps find the same, in the same order, and would refuse nothing.
BoostTimes boost_times(const Workload &w, const Shown &ours) {
    Boost start;
    start.run(w.before, Job::bare);
    Boost tried = start;
    if (!(tried.shown(w.timed) == ours) || tried.refused() != 0) {
        std::fprintf(stderr, "bench: %s: the two do not find the same\n", w.name.c_str());
        std::exit(1);
    }
    const auto time = [&](Job job) {
        return took(start, [&](Boost &b) { b.run(w.timed, job); }) / static_cast<double>(w.timed.size());
    };
    return {time(Job::bare), time(Job::same)};
}

void print_boost_memory(const Requests &inserts) {
    Boost boost;
    boost.run(inserts, Job::bare);
    std::printf(" %.1f |\n", static_cast<double>(bytes_held) / static_cast<double>(boost.records()));
}
#else
BoostTimes learnt_boost_times(const Workload &) { return {}; }
BoostTimes boost_times(const Workload &, const Shown &) { return {}; }
void print_boost_memory(const Requests &) { std::printf(" |\n"); }
#endif

// The map's time for each of the first `count` requests of the workload.
double map_time(const Map &start, const Workload &w, size_t count, size_t batch) {
    const Requests part(w.timed.begin(), w.timed.begin() + static_cast<std::ptrdiff_t>(count));
    return took(start, [&](Map &m) { m.run(part, batch); }) / static_cast<double>(count);
}

// The map as a workload finds it, with room for all that the workload finds.
Map before(const Size &size, const Workload &w) {
    Map map(size.slots);
    map.run(w.before, Map::most);
    map.make_room(w.timed);
    return map;
}

// The times per request of one workload, a number for each run.
struct Times {
    std::string name;
    size_t batch;
    std::vector<double> single, batched, bare, same;
};

void run_once(const Size &size, const Workload &w, Times &times) {
    const Map start = before(size, w);
    const BoostTimes boost = boost_times(w, Map(start).shown(w.timed));
    times.name = w.name;
    times.batch = w.timed.size();
    times.single.push_back(map_time(start, w, times.batch / eighth, 1));
    times.batched.push_back(map_time(start, w, times.batch, times.batch));
    times.bare.push_back(boost.bare);
    times.same.push_back(boost.same);
}

// Every workload of a size, over all runs.
std::vector<Times> all_times(const Size &size) {
    std::vector<Times> all(workload_count);
    for (uint64_t run = 0; run < runs; ++run) {
        const std::vector<Workload> drawn = workloads(first_seed + run, size.records, size.changes);
        for (size_t k = 0; k < workload_count; ++k) run_once(size, drawn[k], all[k]);
    }
    return all;
}

constexpr const char *heading =
    "| Slots | Requests | In a batch | dustmap | Boost, bare | dustmap / bare | Boost, same job | dustmap / same job |\n"
    "|---|---|---|---|---|---|---|---|\n";

// How many times as long as Boost's, run by run, the middle one: what else the machine does at the time slows both.
double ratio(const std::vector<double> &ours, const std::vector<double> &theirs) {
    std::vector<double> all;
    for (size_t k = 0; k < ours.size(); ++k) all.push_back(ours[k] / theirs[k]);
    return middle(all);
}

// A line of the table; Boost's columns are empty where it is not there.
void print_line(const Size &size, const Times &t, size_t batch, const std::vector<double> &ours) {
    std::printf("| %zu | %s | %zu | %.3f |", size.slots, t.name.c_str(), batch, middle(ours));
    for (const std::vector<double> &theirs : {t.bare, t.same}) {
        if (theirs[0] > 0) std::printf(" %.3f | %.2f |", middle(theirs), ratio(ours, theirs));
        else std::printf(" | |");
    }
    std::printf("\n");
    std::fflush(stdout);
}

void print_times(const Size &size, const std::vector<Times> &all) {
    for (const Times &t : all) {
        print_line(size, t, 1, t.single);
        print_line(size, t, t.batch, t.batched);
    }
}

void print_learnt(const Size &size) {
    for (const Workload &w : workloads(first_seed, size.records, size.changes)) {
        const size_t batch = w.timed.size();
        const double ours = least(lessons, before(size, w), [&](Map &m) { m.run(w.timed, batch); }) / static_cast<double>(batch);
        const BoostTimes boost = learnt_boost_times(w);
        print_line(size, {w.name, batch, {}, {ours}, {boost.bare}, {boost.same}}, batch, {ours});
    }
}

void print_scaling(const Size &size, const std::vector<Times> &all) {
    std::printf("| %zu | %d |", size.slots, size.records);
    for (const Times &t : all) std::printf(" %.3f |", middle(t.batched));
    std::printf("\n");
}

// The pool as the inserts leave it, with as many records as the workloads have.
Map filled(const Size &size, const Requests &inserts) {
    Map map(size.slots);
    map.run(inserts, Map::most);
    return map;
}

// The time of one of several calls, or of copies, one after another.
template <class Call> double each(const Map &map, Call call) {
    const double all = least(times, map, [&](Map &m) {
        for (size_t k = 0; k < empty_calls; ++k) call(m);
    });
    return all / static_cast<double>(empty_calls);
}

// A line of the table of calls with no request: a pool, the time, and how many copies of the pool take as long.
void print_call(const Size &size, const std::string &pool, double took, double copied) {
    std::printf("| %zu | %s | %.2f | %.1f |\n", size.slots, pool.c_str(), took, took / copied);
    std::fflush(stdout);
}

void print_calls(const Size &size, const Requests &inserts) {
    const Map sound = filled(size, inserts);
    const double copied = each(sound, [](Map &m) { m.copy(); });
    print_call(size, "a copy, by memcpy", copied, copied);
    print_call(size, "sound", each(sound, [](Map &m) { m.empty_call(); }), copied);
    for (const Damage &d : damages()) {
        Map hostile = sound;
        d.done(hostile.damaged());
        if (Map(hostile).empty_call() != 2) {
            std::fprintf(stderr, "bench: %s: the pool is not refused\n", d.name.c_str());
            std::exit(1);
        }
        print_call(size, d.name, each(hostile, [](Map &m) { m.empty_call(); }), copied);
    }
}

void print_memory(const Size &size, const Requests &inserts) {
    const Map map = filled(size, inserts);
    const double records = static_cast<double>(map.records());
    const double lent = static_cast<double>(map.words()) / records;
    const double used = 42.0 * static_cast<double>(map.slots_in_use()) / records;
    std::printf("| %zu | %zu | %.1f | %.1f | %.1f | %.1f |", size.slots, map.records(), lent, used, 4 * lent, 4 * used);
    print_boost_memory(inserts);
}

// The inserts of as many records as the workloads have.
Requests inserts(const Size &size) { return workload("", first_seed, size.records, 0, [](Site &s) { return s.add(); }).before; }

void print_growth(const std::vector<std::vector<Times>> &all) {
    std::printf("\nHow the times grow, in large batches, in microseconds per request.\n\n| Slots | Records |");
    for (const Times &t : all[0]) std::printf(" %s |", t.name.c_str());
    std::printf("\n|---|---|---|---|---|---|---|---|\n");
    for (size_t k = 0; k < all.size(); ++k) print_scaling(sizes[k], all[k]);
}

int main() {
    if (!HAVE_BOOST) std::printf("Boost.Geometry's headers are not installed (Debian: libboost-dev): its columns are empty.\n\n");
    std::printf("Time per request, in microseconds, the middle of %d runs, each with a site and requests of its own, and so are the ratios. Boost, same job: it asks for\n"
                "the exact pair before an insert and for both before an update, and sorts what a search finds. A batch of 1 pays at each call\n"
                "for the check that the whole pool is sound and for its copy in the workspace, as document 01 demands.\n\n", static_cast<int>(runs));
    std::printf("%s", heading);
    std::vector<std::vector<Times>> all;
    for (const Size &size : sizes) {
        all.push_back(all_times(size));
        if (size.all_shown) print_times(size, all.back());
    }
    std::printf("\nThe call alone, with a batch of 0, in microseconds, and in copies of the pool: %zu one after another, the least of %d runs.\n"
                "All pools but the sound one are refused.\n\n| Slots | Pool | Time | Copies |\n|---|---|---|---|\n", empty_calls, times);
    for (const Size &size : sizes) {
        if (size.all_shown) print_calls(size, inserts(size));
    }
    print_growth(all);
    std::printf("\nOne batch again and again, in the smallest pool: the least of %d runs of the same requests, once the processor has learnt them.\n\n%s",
                lessons, heading);
    print_learnt(sizes[0]);
    std::printf("\nMemory per record. The workspace has as many words again as the pool.\n\n"
                "| Slots | Records | Words of the pool | Words of slots in use | Bytes of the pool | Bytes of slots in use | "
                "Boost, bytes |\n|---|---|---|---|---|---|---|\n");
    for (const Size &size : sizes) {
        if (size.all_shown) print_memory(size, inserts(size));
    }
}
