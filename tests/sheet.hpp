// A sheet read by hand, from document 01's conditions 18 and 19, and whether r3_sheet says the same of it.
#pragma once
#include <cstdio>
#include <set>
#include <vector>

#include "plain.hpp"

#include "r3.h"

struct Reading {
    uint32_t number, cost;
    std::vector<uint32_t> places;
};

inline Reading read_sheet(const uint8_t *sheet, size_t length)
{
    const Reading misfit{18, 0, {}}, false_sheet{19, 0, {}};
    if (length < 6 || length != 4 + plain::u16(sheet))
        return misfit;
    Reading r{17, 0, {}};
    if (plain::u16(sheet + 2) == 18 && length == 6) {
        r.places = {plain::u16(sheet + 4)};
    } else if (plain::u16(sheet + 2) == 17 && length >= 10 && length == 10 + 2 * plain::u16(sheet + 8)) {
        r.number = 0;
        r.cost = plain::u32(sheet + 4);
        for (const uint8_t *p = sheet + 10; p != sheet + length; p += 2)
            r.places.push_back(plain::u16(p));
    } else {
        return misfit;
    }
    if (r.places.empty() || r.places.size() > 4096 || *std::max_element(r.places.begin(), r.places.end()) > 4095)
        return false_sheet;
    uint64_t arcs = r.places.size() - 1;
    if (std::set<uint32_t>(r.places.begin(), r.places.end()).size() != r.places.size() || r.cost < arcs || r.cost > arcs * 65535)
        return false_sheet;
    return r;
}

// Asks for all that a sheet says, and for places beyond the last.
inline bool same_reading(const uint8_t *sheet, size_t length, const Reading &r)
{
    auto same = [&](uint32_t question, uint32_t expected) {
        uint32_t got = r3_sheet(sheet, length, question);
        if (got != expected)
            std::fprintf(stderr, "sheet of %zu bytes: question %u gives %u, by hand %u\n", length, question, got, expected);
        return got == expected;
    };
    uint32_t count = static_cast<uint32_t>(r.places.size());
    bool all = same(0, r.number) && same(1, r.cost) && same(2, count);
    for (uint32_t i = 0; all && i < count; i++)
        all = same(3 + i, r.places[i]);
    for (uint32_t beyond : {3 + count, 4 + count, 3 + 4096u, 0x80000003u, 0xffffffffu})
        all = all && same(beyond, 0);
    return all;
}
