// The fuzzer's target for r3_write_map, which tests/fuzz builds and runs. The archive has no instrumentation: plain_writer.hpp guides the fuzzer, and
// so does what a map asks of a writer.
#include "fuzz_call.hpp"

namespace {

SEEN uint8_t lost_seen[steps], inversions_seen[steps], decided_seen[steps];

// by what the map asks for: bytes to leave out, arcs that stand behind a greater one, and how far neighbours are alike in what is written
void guide(const Drawn &drawn, const Bytes &written)
{
    uint32_t inversions = 0;
    Records before = split(drawn.input, drawn.length), after = split(written.data(), written.size());
    for (size_t i = 1; i < before.size(); i++)
        inversions += is_arc(before[i - 1]) && is_arc(before[i]) && before[i - 1] > before[i];
    see(lost_seen, static_cast<uint32_t>(drawn.length - written.size()));
    see(inversions_seen, inversions);
    for (size_t i = 1; i < after.size(); i++) {
        size_t least = std::min(after[i - 1].size(), after[i].size());
        auto differ = std::mismatch(after[i].begin(), after[i].begin() + static_cast<long>(least), after[i - 1].begin());
        see(decided_seen, static_cast<uint32_t>(differ.first - after[i].begin()));
    }
}

} // namespace

extern "C" int LLVMFuzzerTestOneInput(const uint8_t *data, size_t size)
{
    static Comparison<Writing> comparison;
    static LastTally tally("answers", {0, 1, 2, 3, 4, 5, 6, 7, 8, 9, 20, 22, 21, 10, 11, 12, 13, 14, 15});
    if (size < 2)
        return 0;
    Drawn drawn(data, size);
    bool same = drawn.same(comparison, drawn.length);
    const plain::Answer &a = comparison.answer;
    tally.count(a.number);
    if (same && a.number == 0) { // what was written is written again
        Bytes written(comparison.written, comparison.written + a.bytes);
        guide(drawn, written);
        same = comparison.same(written.data(), written.size(), R3_WORDS_OF(drawn.places, drawn.arcs), written.size(), 9) &&
               std::equal(written.begin(), written.end(), comparison.written);
    }
    if (!same)
        std::abort();
    return 0;
}
