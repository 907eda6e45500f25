// The proved map, driven through bindings/dustmap.h.
#pragma once

#include <algorithm>
#include <cstdio>
#include <cstdlib>
#include <cstring>

#include "workloads.hpp"

// What the searches of a run found, in order, to see that two maps were given the same requests and gave the same answers.
struct Shown {
    uint64_t records = 0;
    uint64_t numbers = 0;

    void add(int32_t number) {
        ++records;
        numbers = 31 * numbers + static_cast<uint64_t>(number);
    }

    bool operator==(const Shown &other) const { return records == other.records && numbers == other.numbers; }
};

class Map {
public:
    explicit Map(size_t slots) : pool(8 + 42 * slots), work(pool.size()) { must(dustmap_blank(pool.data(), pool.size()) == 0); }

    // A call for every `batch` requests, one after another. The found list is used again by each call.
    void run(const Requests &requests, size_t batch) {
        for (size_t at = 0; at < requests.size(); at += batch) {
            call(&requests[at], std::min(batch, requests.size() - at));
        }
    }

    void call(const dustmap_request *requests, size_t count) { must(returned(requests, count) == 0); }

    // A call with no request: the number that it returns, 2 where the pool is not sound.
    int32_t empty_call() {
        const dustmap_request none{};
        return returned(&none, 0);
    }

    // A copy of the pool, as memcpy makes it: what the time of a call is held against.
    void copy() { std::memcpy(work.data(), pool.data(), pool.size() * sizeof(int32_t)); }

    // The words, to do damage.
    std::vector<int32_t> &damaged() { return pool; }

    // The same requests in one batch: every one has to be accepted. Gives what the searches found.
    Shown shown(const Requests &requests) {
        Shown shown;
        for (size_t at = 0; at < requests.size(); at += most) {
            const size_t count = std::min(most, requests.size() - at);
            call(&requests[at], count);
            for (size_t k = 0; k < count; ++k) {
                must(answers[k].number == 0);
                for (uint32_t f = 0; f < answers[k].found; ++f) shown.add(found[answers[k].start + f].number);
            }
        }
        return shown;
    }

    // Room for all that the requests find. With no room at all, 8 still reports how many there are.
    void make_room(const Requests &requests) {
        Map dry = *this;
        size_t places = 0;
        for (size_t at = 0; at < requests.size(); at += most) {
            const size_t count = std::min(most, requests.size() - at);
            dry.call(&requests[at], count);
            for (size_t k = 0; k < count; ++k) places += dry.answers[k].found;
        }
        found.resize(places);
    }

    size_t words() const { return pool.size(); }
    size_t records() const { return static_cast<size_t>(pool[3]); }

    size_t slots_in_use() const {
        size_t used = 0;
        for (size_t at = 8; at < pool.size(); at += 42) used += pool[at] != 0;
        return used;
    }

    // "A batch has 0 to 1,024 requests."
    static constexpr size_t most = 1'024;

private:
    int32_t returned(const dustmap_request *requests, size_t count) {
        return dustmap_call(pool.data(), pool.size(), work.data(), work.size(), requests, count, answers.data(), count,
                            found.data(), found.size());
    }

    static void must(bool holds) {
        if (holds) return;
        std::fprintf(stderr, "bench: a call or a request was refused\n");
        std::exit(1);
    }

    std::vector<int32_t> pool, work;
    std::vector<dustmap_answer> answers = std::vector<dustmap_answer>(most);
    std::vector<dustmap_found> found;
};
