// What the fuzzer's targets for r3_route, r3_write_map and r3_report share. A fuzz input is two bytes, signed, by which the words and bytes lent
// differ from what the call asks for, and then the call's input.
#pragma once
#include "compare.hpp"
#include "mutate.hpp"
#include "tally.hpp"

extern "C" size_t LLVMFuzzerMutate(uint8_t *data, size_t size, size_t most);

// the fuzzer keeps an input if it sets a byte of such a row that no other has set
constexpr uint32_t steps = 512;
#define SEEN __attribute__((section("__libfuzzer_extra_counters")))

inline void see(uint8_t *row, uint32_t step)
{
    row[std::min(step, steps - 1)] = 1;
}

// a fuzz input of at least two bytes, taken apart
class Drawn {
  public:
    Drawn(const uint8_t *data, size_t size) : input(data + 2), length(size - 2), more_words_(data[0]), more_bytes_(data[1])
    {
        if (length >= 8) {
            places = std::min(plain::u16(input + 4), 4096u);
            arcs = std::min(plain::u16(input + 6), 16384u);
        }
    }

    // whether the two calls do the same, where the call asks for so many bytes
    template <class Call> bool same(Comparison<Call> &comparison, size_t asked) const
    {
        size_t room = length / 2 % 32 < 8 ? length / 2 % 32 : 9; // short answers too
        return comparison.same(input, length, words(), bytes(asked), room);
    }

    size_t words() const { return lent(R3_WORDS_OF(places, arcs), more_words_); }
    size_t bytes(size_t asked) const { return lent(asked, more_bytes_); }

    const uint8_t *input;
    size_t length, places = 1, arcs = 0;

  private:
    static size_t lent(size_t asked, uint8_t more) { return std::max(static_cast<long>(asked) + static_cast<int8_t>(more), 0L); }

    uint8_t more_words_, more_bytes_;
};

extern "C" size_t LLVMFuzzerCustomMutator(uint8_t *data, size_t size, size_t most, unsigned seed)
{
    Mutator mutator(split(data + 2, std::max<size_t>(size, 2) - 2), seed, LLVMFuzzerMutate);
    if (mutator.empty() || mutator.below(32) == 0)
        return LLVMFuzzerMutate(data, size, most);
    if (mutator.below(32) == 0)
        LLVMFuzzerMutate(data, 2, 2);
    else
        mutator.mutate();
    return 2 + mutator.write(data + 2, most - 2);
}
