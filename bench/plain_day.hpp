// The same report by hand in C++: every job behind the map goes through the whole call by hand (plain.hpp).
#pragma once
#include <cstring>

#include "plain.hpp"

namespace plain {

constexpr uint32_t too_long = 255;

struct Figures {
    uint64_t cost = 0, largest = 0, expansions = 0;
    std::array<uint64_t, 23> counts{};
    std::array<uint64_t, 26> numbers() const
    {
        std::array<uint64_t, 26> all{cost, largest, expansions};
        std::copy(counts.begin(), counts.end(), all.begin() + 3);
        return all;
    }
};

class Reporter : public Router {
  public:
    // how it ended, as r3_report says it; Tally: a record of a goal, its routes and their cost
    template <class Tally>
    uint32_t report(const uint8_t *in, size_t length, uint32_t *work, size_t words, uint8_t *sheet, size_t bytes, Tally *tally, size_t records)
    {
        figures = {};
        if (length > 65536)
            return too_long;
        size_t map = map_length(in, length);
        if (entries(in + map, length - map) > 1000)
            return too_long;
        if (records < 4096)
            return 15;
        for (uint32_t g = 0; g < 4096; g++)
            tally[g] = {g, 0, 0};
        std::memcpy(input_.data(), in, map);
        size_t at = map;
        for (size_t next; whole(in, length, at, next); at = next)
            run(in + at, next - at, map, work, words, sheet, bytes, tally);
        if (at < length)
            figures.counts[1]++;
        return 0;
    }

    Figures figures;

  private:
    static bool is_job(const uint8_t *record) { return u16(record + 2) == 4; }

    // whether a whole record begins at byte `at`, and where the next one does
    static bool whole(const uint8_t *in, size_t length, size_t at, size_t &next)
    {
        if (length - at < 4 || length - at - 4 < u16(in + at))
            return false;
        next = at + 4 + u16(in + at);
        return true;
    }

    static size_t map_length(const uint8_t *in, size_t length)
    {
        size_t at = 0, next;
        while (whole(in, length, at, next) && !is_job(in + at))
            at = next;
        return at;
    }

    static size_t entries(const uint8_t *in, size_t length)
    {
        size_t at = 0, next, count = 0;
        for (; whole(in, length, at, next); at = next)
            count++;
        return at < length ? count + 1 : count;
    }

    template <class Tally>
    void run(const uint8_t *record, size_t size, size_t map, uint32_t *work, size_t words, uint8_t *sheet, size_t bytes, Tally *tally)
    {
        if (!is_job(record)) {
            figures.counts[10]++;
            return;
        }
        std::memcpy(input_.data() + map, record, size);
        Answer a = route(input_.data(), map + size, work, words, sheet, bytes);
        figures.counts[a.number]++;
        if (a.number == 0 || a.number == 17)
            figures.expansions += a.expansions;
        if (a.number == 0) {
            Tally &t = tally[u16(sheet + a.bytes - 2)];
            t.routes++;
            t.cost += a.cost;
            figures.cost += a.cost;
            figures.largest = std::max<uint64_t>(figures.largest, a.cost);
        }
    }

    std::vector<uint8_t> input_ = std::vector<uint8_t>(65536); // the map with one job
};

} // namespace plain
