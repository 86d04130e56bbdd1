// One call, exported and by hand, on memory lent alike, and whether all that the two leave is the same.
#pragma once
#include <cstdio>
#include <vector>

#include "calls.hpp"
#include "lent.h"

// Room for elements of which the last stands right before a page that cannot be touched.
template <class T> class Area {
  public:
    explicit Area(size_t most) : end_(reinterpret_cast<T *>(page_end(most * sizeof(T)))), fresh_(most)
    {
        for (size_t i = 0; i < most; i++)
            fresh_[i] = static_cast<T>(filler(i));
    }
    T *lend(size_t length) { return put(fresh_.data(), length); }
    T *put(const T *from, size_t length)
    {
        std::copy_n(from, length, end_ - length);
        return end_ - length;
    }

  private:
    T *end_;
    std::vector<T> fresh_;
};

template <class Call> class Comparison {
  public:
    static constexpr size_t spare = 256; // how far a caller may lend more than any map needs

    // Whether the exported call does as the one by hand does; if not, both answers are printed.
    bool same(const uint8_t *input, size_t length, size_t words, size_t bytes, size_t room)
    {
        const uint8_t *read = input_.put(input, length);
        uint32_t *work = work_.lend(words), *work_by_hand = other_work_.lend(words);
        uint8_t *out = out_.lend(bytes), *out_by_hand = other_out_.lend(bytes);
        uint32_t *numbers = numbers_.lend(room), *numbers_by_hand = other_numbers_.lend(room);
        uint32_t number = Call::exported(read, length, work, words, out, bytes, numbers, room);
        answer = call_.by_hand(input, length, work_by_hand, words, out_by_hand, bytes);
        written = out;
        std::copy_n(answer.numbers().begin(), std::min<size_t>(room, 7), numbers_by_hand);
        bool all = check(number == answer.number && std::equal(numbers, numbers + room, numbers_by_hand), "answers");
        all &= check(std::equal(read, read + length, input), "inputs");
        all &= check(std::equal(work, work + words, work_by_hand), "work areas");
        all &= check(std::equal(out, out + bytes, out_by_hand), "output areas");
        for (size_t i = 0; !all && i < room; i++)
            std::fprintf(stderr, "answer, word %zu: %u, by hand %u\n", i, numbers[i], numbers_by_hand[i]);
        return all;
    }

    // whether the route of the last call would be another if arcs were not counted
    bool arcs_decide() const { return answer.number == 0 && call_.arcs_decide(); }

    plain::Answer answer;             // by hand, of the last call
    const uint8_t *written = nullptr; // the exported one's output area after it

  private:
    static bool check(bool same, const char *what)
    {
        if (!same)
            std::fprintf(stderr, "the %s differ\n", what);
        return same;
    }

    Call call_;
    Area<uint8_t> input_{longest_input}, out_{Call::most_bytes + spare}, other_out_{Call::most_bytes + spare};
    Area<uint32_t> work_{R3_WORDS + spare}, other_work_{R3_WORDS + spare}, numbers_{9}, other_numbers_{9};
};
