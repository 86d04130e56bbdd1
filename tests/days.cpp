// Fresh random days through the report: days [SEED]. Every report, also of damaged inputs and with too little lent, is held against the one by hand
// (plain_day.hpp). Apart from that, each day is made up once more of its jobs one by one: r3_route on the map and one job, with memory of its own for
// each, must come to what was counted. A seed that was printed gives the same days again.
#include <map>
#include <string>

#include "compare_day.hpp"
#include "mutate.hpp"
#include "random_map.hpp"
#include "tally.hpp"

namespace {

bool is_job(const Bytes &r)
{
    return r.size() >= 4 && r[2] == 4 && r[3] == 0;
}

bool is_whole(const Bytes &r)
{
    return r.size() >= 4 && r.size() == 4 + plain::u16(r.data());
}

class Test {
  public:
    explicit Test(uint32_t seed) : maps_(seed) {}
    uint32_t below(size_t n) { return maps_.below(n); }

    // what is wrong with a new day, or null
    const char *wrong(uint32_t places, uint32_t jobs)
    {
        make(places, jobs);
        Bytes whole = join(day_);
        if (!as_by_hand(whole))
            return "not as by hand";
        if (!as_alone(whole))
            return "not as its jobs by themselves";
        for (int i = 0; i < 3; i++)
            if (!as_by_hand(damaged()))
                return "damaged, it is not reported as by hand";
        return nullptr;
    }

    // the edges of what is too long, of the tally and of the map; what is wrong, or null
    const char *wrong_edge()
    {
        Records map = {{4, 0, 1, 0, 2, 0, 0, 0}};
        const Bytes job = {10, 0, 4, 0, 0, 0, 0, 0, 0, 0, 1, 0, 0, 0}, other = {0, 0, 9, 0}, rest = {1};
        auto with = [&](size_t jobs, const Bytes &last) {
            Records all = map;
            all.insert(all.end(), jobs, job);
            all.push_back(last);
            return join(all);
        };
        const Lent enough = {R3_WORDS, R3_BYTES, R3_RECORDS, R3_FIGURES};
        struct Edge {
            Bytes input;
            Lent lent;
            uint32_t ended;
        };
        Bytes longest = with(0, Bytes(65536 - 8 - 14, 0));
        plain::put16(&longest[8], static_cast<uint32_t>(longest.size() - 8 - 4)); // one record, no job
        longest.insert(longest.end(), job.begin(), job.end());
        Bytes longer = longest;
        longer.push_back(0);
        Lent short_tally = enough, no_tally = enough;
        short_tally.records = R3_RECORDS - 1;
        no_tally.records = 0;
        const Edge edges[] = {
            {with(999, job), enough, 0},
            {with(999, other), enough, 0},
            {with(999, rest), enough, 0},
            {with(1000, job), enough, R3_TOO_LONG},
            {with(1000, other), enough, R3_TOO_LONG},
            {with(1000, rest), enough, R3_TOO_LONG},
            {with(1000, job), no_tally, R3_TOO_LONG},
            {longest, enough, 0},
            {longer, enough, R3_TOO_LONG},
            {longer, no_tally, R3_TOO_LONG},
            {with(1, job), short_tally, 15},
            {with(0, rest), short_tally, 15},
            {Bytes(), no_tally, 15},
            {Bytes(), enough, 0},
            {rest, enough, 0},
            {join(map), enough, 0},
        };
        for (const Edge &e : edges)
            if (!comparison_.same(e.input.data(), e.input.size(), e.lent) || comparison_.ended != e.ended)
                return "an edge is not as it should be";
        return nullptr;
    }

    bool report() const { return ended_.report() & numbers_.report(); }

  private:
    // a map; jobs with its goals or some of them, from anywhere, most with an allowance that is enough; records that are no jobs, and a broken tail
    void make(uint32_t places, uint32_t jobs)
    {
        Map m = maps_.map(static_cast<Maps::Kind>(below(Maps::kinds)), places);
        Bytes input = input_of(m);
        day_ = split(input.data(), input.size());
        day_.pop_back();
        if (below(16) == 0)
            day_.erase(day_.begin() + below(day_.size()));
        for (uint32_t i = 0; i < jobs; i++)
            day_.push_back(below(24) == 0 && !day_.empty() ? day_[below(day_.size())] : some_job(m));
        if (below(4) == 0 && !day_.empty())
            day_.push_back(Bytes(day_.back().begin(), day_.back().begin() + 1 + below(day_.back().size() - 1)));
    }

    Bytes some_job(Map m)
    {
        m.arcs.clear();
        m.wait.assign(m.places, plain::none);
        m.estimate.assign(m.places, plain::none);
        m.start = below(m.places + (below(16) == 0));
        m.goals.erase(std::remove_if(m.goals.begin(), m.goals.end(), [&](uint32_t) { return below(3) == 0; }), m.goals.end());
        if (below(16) == 0)
            m.goals.push_back(below(m.places + 1));
        m.allowance = below(4) == 0 ? below(20 * m.places) : 236 * m.places;
        Bytes input = input_of(m);
        return split(input.data(), input.size()).back();
    }

    Bytes damaged() { return mutated(day_, below(1u << 30), 1 << 17); }

    bool as_by_hand(const Bytes &input)
    {
        size_t places = input.size() < 8 ? 1 : std::min(plain::u16(&input[4]), 4096u),
               arcs = input.size() < 8 ? 0 : std::min(plain::u16(&input[6]), 16384u);
        Lent lent = {R3_WORDS_OF(places, arcs), R3_BYTES_OF(places), R3_RECORDS, R3_FIGURES};
        uint32_t way = below(16);
        if (way == 0)
            lent.words = below(lent.words + 1);
        if (way == 1)
            lent.bytes = below(lent.bytes + 1);
        if (way == 2)
            lent.records = below(R3_RECORDS);
        if (way == 3)
            lent.records += 1 + below(3);
        if (way == 4)
            lent.room = below(R3_FIGURES + 3);
        bool same = comparison_.same(input.data(), input.size(), lent);
        ended_.count(comparison_.ended);
        for (uint32_t n = 0; n < comparison_.reporter.figures.counts.size(); n++)
            if (comparison_.reporter.figures.counts[n] != 0)
                numbers_.count(n);
        return same;
    }

    // with enough lent: each job by itself comes to what was counted
    bool as_alone(const Bytes &input)
    {
        if (!comparison_.same(input.data(), input.size(), {R3_WORDS, R3_BYTES, R3_RECORDS, R3_FIGURES}) || comparison_.ended != 0)
            return comparison_.ended == R3_TOO_LONG;
        Records records = split(input.data(), input.size());
        auto first = std::find_if(records.begin(), records.end(), [](const Bytes &r) { return is_whole(r) && is_job(r); });
        if (first == records.end() && !records.empty() && !is_whole(records.back()))
            first = records.end() - 1;
        Bytes map = join(Records(records.begin(), first));
        plain::Figures sum;
        std::map<uint32_t, std::pair<uint64_t, uint64_t>> goals;
        for (auto r = first; r != records.end(); ++r) {
            if (!is_whole(*r) || !is_job(*r)) {
                sum.counts[is_whole(*r) ? 10 : 1]++;
                continue;
            }
            Bytes one = map;
            one.insert(one.end(), r->begin(), r->end());
            std::vector<uint32_t> work(R3_WORDS, 7);
            Bytes sheet(R3_BYTES, 7);
            uint32_t a[7];
            sum.counts[r3_route(one.data(), one.size(), work.data(), work.size(), sheet.data(), sheet.size(), a, 7)]++;
            if (a[0] == 0 || a[0] == 17)
                sum.expansions += a[4];
            if (a[0] == 0) {
                auto &goal = goals[plain::u16(&sheet[10 + 2 * plain::u16(&sheet[8]) - 2])];
                goal.first++;
                goal.second += a[1];
                sum.cost += a[1];
                sum.largest = std::max<uint64_t>(sum.largest, a[1]);
            }
        }
        bool same = sum.numbers() == comparison_.reporter.figures.numbers();
        for (uint32_t g = 0; g < R3_RECORDS; g++) {
            const r3_tally &t = comparison_.tally[g];
            auto goal = goals.find(g);
            auto want = goal == goals.end() ? std::pair<uint64_t, uint64_t>() : goal->second;
            same = same && t.goal == g && t.routes == want.first && t.cost == want.second;
        }
        return same;
    }

    Maps maps_;
    Records day_;
    DayComparison comparison_;
    Tally<uint32_t> ended_{"days: ended", {0, 15, R3_TOO_LONG}};
    Tally<uint32_t> numbers_{"days: with answers", {0, 1, 2, 3, 4, 5, 6, 7, 8, 9, 10, 11, 12, 13, 14, 15, 16, 17, 20, 21, 22}};
};

} // namespace

int main(int count, char **words)
{
    uint32_t seed = count > 1 ? static_cast<uint32_t>(std::stoul(words[1])) : std::random_device()();
    std::printf("days: seed %u\n", seed);
    std::fflush(stdout);
    Test test(seed);
    const char *what = test.wrong_edge();
    for (uint32_t turn = 0; turn < 6000 && what == nullptr; turn++) {
        bool large = turn % 300 == 0;
        what = test.wrong(1 + test.below(large ? 1000 : turn % 8 == 0 ? 100 : 12), large ? test.below(1200) : test.below(12));
        if (what != nullptr)
            std::printf("days: day %u is wrong\n", turn);
    }
    if (what != nullptr) {
        std::printf("days: seed %u: %s\n", seed, what);
        return 1;
    }
    return !test.report();
}
