// The fuzzer's target for r3_sheet, which tests/fuzz builds and runs: a fuzz input is a sheet, and the reader by hand guides the fuzzer.
#include "lent.h"
#include "sheet.hpp"
#include "tally.hpp"

extern "C" size_t LLVMFuzzerMutate(uint8_t *data, size_t size, size_t most);

extern "C" int LLVMFuzzerTestOneInput(const uint8_t *data, size_t size)
{
    constexpr size_t most = 1 << 17;
    static uint8_t *const end = page_end(most);
    static LastTally tally("answers", {0, 17, 18, 19});
    if (size > most)
        return 0;
    uint8_t *sheet = end - size;
    std::copy_n(data, size, sheet);
    Reading r = read_sheet(data, size);
    tally.count(r.number);
    if (!same_reading(sheet, size, r) || !std::equal(data, data + size, sheet))
        std::abort();
    return 0;
}

// mostly makes a route sheet of it again, with a length, a kind and a count that fit
extern "C" size_t LLVMFuzzerCustomMutator(uint8_t *data, size_t size, size_t most, unsigned seed)
{
    size = LLVMFuzzerMutate(data, size, most);
    if (size < 10 || seed % 4 == 0)
        return size;
    uint32_t count = static_cast<uint32_t>(size - 10) / 2;
    plain::put16(data, 6 + 2 * count);
    plain::put16(data + 2, 17);
    plain::put16(data + 8, count);
    return 10 + 2 * count;
}
