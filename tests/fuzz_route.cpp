// The fuzzer's target for r3_route, which tests/fuzz builds and runs: plain.hpp guides the fuzzer, since the archive has no instrumentation.
#include "fuzz_call.hpp"
#include "sheet.hpp"

namespace {

SEEN uint8_t queries_seen[steps], places_seen[steps], expansions_seen[steps];

void guide(const plain::Answer &a)
{
    see(queries_seen, a.queries);
    see(places_seen, a.bytes / 2);
    see(expansions_seen, a.expansions);
}

} // namespace

extern "C" int LLVMFuzzerTestOneInput(const uint8_t *data, size_t size)
{
    static Comparison<Routing> comparison;
    static LastTally tally("answers", {0, 1, 2, 3, 4, 5, 6, 7, 8, 9, 20, 22, 21, 10, 11, 12, 13, 14, 15, 16, 17});
    if (size < 2)
        return 0;
    Drawn drawn(data, size);
    bool same = drawn.same(comparison, R3_BYTES_OF(drawn.places));
    const plain::Answer &a = comparison.answer;
    tally.count(a.number);
    guide(a);
    if (same && a.bytes != 0) { // what the router wrote is read again
        Reading r = read_sheet(comparison.written, a.bytes);
        same = r.number == a.number && r.cost == a.cost && same_reading(comparison.written, a.bytes, r);
    }
    if (!same)
        std::abort();
    return 0;
}
