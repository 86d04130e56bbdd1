// The report of a day, exported and by hand, on memory lent alike, and whether all that the two leave is the same.
#pragma once
#include "compare.hpp"
#include "plain_day.hpp"

// what is lent to a report
struct Lent {
    size_t words, bytes, records, room;
};

class DayComparison {
  public:
    static constexpr size_t most_records = R3_RECORDS + 3, spare = 256;

    // Whether the exported report does as the one by hand does.
    bool same(const uint8_t *input, size_t length, const Lent &lent)
    {
        const uint8_t *read = input_.put(input, length);
        Side a(*this, lent), b(other_, lent);
        ended = r3_report(read, length, a.work, lent.words, a.sheet, lent.bytes, a.tally, lent.records, a.figures, lent.room);
        uint32_t by_hand = reporter.report(input, length, b.work, lent.words, b.sheet, lent.bytes, b.tally, lent.records);
        std::copy_n(reporter.figures.numbers().begin(), std::min<size_t>(lent.room, R3_FIGURES), b.figures);
        tally = a.tally;
        auto alike = [](const r3_tally &x, const r3_tally &y) { return x.goal == y.goal && x.routes == y.routes && x.cost == y.cost; };
        bool all = check(ended == by_hand && std::equal(a.figures, a.figures + lent.room, b.figures), "figures");
        all &= check(std::equal(read, read + length, input), "inputs");
        all &= check(std::equal(a.work, a.work + lent.words, b.work), "work areas");
        all &= check(std::equal(a.sheet, a.sheet + lent.bytes, b.sheet), "sheet areas");
        all &= check(std::equal(a.tally, a.tally + lent.records, b.tally, alike), "tallies");
        return all;
    }

    plain::Reporter reporter;        // with the figures of the last report
    const r3_tally *tally = nullptr; // the exported one's after it
    uint32_t ended = 0;

  private:
    struct Areas {
        Area<uint32_t> work{R3_WORDS + spare}, records{4 * most_records}, figures{2 * (R3_FIGURES + 2)};
        Area<uint8_t> sheet{R3_BYTES + spare};
    };

    // one side's memory, filled anew; records and figures are made of words
    struct Side {
        Side(DayComparison &d, const Lent &lent) : Side(d.areas_, lent) {}
        Side(Areas &areas, const Lent &lent)
            : work(areas.work.lend(lent.words)), sheet(areas.sheet.lend(lent.bytes)),
              tally(reinterpret_cast<r3_tally *>(areas.records.lend(4 * lent.records))),
              figures(reinterpret_cast<uint64_t *>(areas.figures.lend(2 * lent.room)))
        {
        }
        uint32_t *work;
        uint8_t *sheet;
        r3_tally *tally;
        uint64_t *figures;
    };

    static bool check(bool same, const char *what)
    {
        if (!same)
            std::fprintf(stderr, "the %s differ\n", what);
        return same;
    }

    Area<uint8_t> input_{longest_input};
    Areas areas_, other_;
};
