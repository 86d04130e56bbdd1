// The fuzzer's target for r3_report, which tests/fuzz builds and runs. The archive has no instrumentation: plain_day.hpp guides the fuzzer, and so
// does what the jobs of a day come to.
#include "compare_day.hpp"
#include "fuzz_call.hpp"

namespace {

SEEN uint8_t jobs_seen[steps], goals_seen[steps];

// by how many jobs are counted, and how many goals are reached
void guide(const DayComparison &comparison)
{
    const auto &counts = comparison.reporter.figures.counts;
    uint64_t jobs = 0;
    for (uint64_t count : counts)
        jobs += count;
    auto reached = [](const r3_tally &t) { return t.routes != 0; };
    see(jobs_seen, static_cast<uint32_t>(jobs));
    see(goals_seen, static_cast<uint32_t>(std::count_if(comparison.tally, comparison.tally + R3_RECORDS, reached)));
}

} // namespace

extern "C" int LLVMFuzzerTestOneInput(const uint8_t *data, size_t size)
{
    static DayComparison comparison;
    static LastTally tally("days with answers", {0, 1, 2, 3, 4, 5, 6, 7, 8, 9, 20, 22, 21, 10, 11, 12, 13, 14, 15, 16, 17});
    if (size < 2)
        return 0;
    Drawn drawn(data, size);
    size_t few = drawn.length % 64; // now and then too few records, or more than are needed
    size_t records = few == 1 ? R3_RECORDS - 1 : R3_RECORDS + (few == 2 ? 2 : 0), room = few == 3 ? 7 : R3_FIGURES;
    Lent lent = {drawn.words(), drawn.bytes(R3_BYTES_OF(drawn.places)), records, room};
    if (!comparison.same(drawn.input, drawn.length, lent))
        std::abort();
    for (uint32_t n = 0; n < comparison.reporter.figures.counts.size(); n++)
        if (comparison.reporter.figures.counts[n] != 0)
            tally.count(n);
    if (comparison.ended == 0)
        guide(comparison);
    return 0;
}
