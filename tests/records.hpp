// An input as its records.
#pragma once
#include <algorithm>
#include <vector>

#include "plain_reader.hpp"

using Bytes = std::vector<uint8_t>;
using Records = std::vector<Bytes>;

// what is left where the framing breaks is the last one
inline Records split(const uint8_t *input, size_t length)
{
    Records records;
    for (size_t at = 0; at < length; at += records.back().size()) {
        size_t left = length - at, whole = left < 4 ? left : std::min<size_t>(left, 4 + plain::u16(input + at));
        records.emplace_back(input + at, input + at + whole);
    }
    return records;
}

inline Bytes join(const Records &records)
{
    Bytes all;
    for (const Bytes &r : records)
        all.insert(all.end(), r.begin(), r.end());
    return all;
}

inline bool is_arc(const Bytes &r)
{
    return (r.size() == 10 && r[2] == 2) || (r.size() == 12 && r[2] == 5);
}

// of factors
inline bool is_table(const Bytes &r)
{
    return r.size() == 20 && r[2] == 7;
}

inline plain::Factors factors_of(const Bytes &table)
{
    plain::Factors factors;
    for (size_t c = 0; c < factors.size(); c++)
        factors[c] = plain::u16(&table[4 + 2 * c]);
    return factors;
}

inline bool is_default(const Bytes &r)
{
    return r.size() == 8 && r[2] == 8;
}

// gives the head the number of arcs that there are
inline void count_arcs(Records &records)
{
    plain::put16(&records[0][6], static_cast<uint32_t>(std::count_if(records.begin(), records.end(), is_arc)));
}
