// Times the report of a day against the same report by hand in C++ (plain_day.hpp): 1,000 jobs on one map, for several maps. The lines under the
// table say what its columns are. bench/run builds and runs it: day WAREHOUSE, a file with the map of the first row.
#include <fstream>
#include <iterator>
#include <numeric>

#include "maps.hpp"
#include "pair.hpp"
#include "plain_day.hpp"

namespace {

using Bytes = std::vector<uint8_t>;
using maps::Chance;

constexpr size_t most_jobs = 1000, longest = 65536;

// a map without its job, and what its jobs may be made of
struct Site {
    const char *name;
    Bytes map;
    uint32_t places;
    std::vector<uint32_t> goals; // of which each job has one or more
};

// up to the first job
size_t map_length(const Bytes &input)
{
    size_t at = 0;
    while (at < input.size() && plain::u16(&input[at + 2]) != 4)
        at += 4 + plain::u16(&input[at]);
    return at;
}

Site site_of(const char *name, Bytes input)
{
    const uint8_t *job = &input[map_length(input)];
    Site s = {name, {}, plain::u16(&input[4]), {}};
    for (uint32_t i = 0; i < plain::u16(job + 10); i++)
        s.goals.push_back(plain::u16(job + 12 + 2 * i));
    input.resize(map_length(input));
    s.map = std::move(input);
    return s;
}

void put_job(Bytes &out, uint32_t start, uint32_t allowance, const std::vector<uint32_t> &goals)
{
    uint32_t count = static_cast<uint32_t>(goals.size());
    put_front(out, 8 + 2 * count, 4);
    put(out, start, 2);
    put(out, allowance, 4);
    put(out, count, 2);
    for (uint32_t g : goals)
        put(out, g, 2);
}

// the map and 1,000 jobs, or as many as there is room for: from anywhere, to some of the goals
Bytes day_of(const Site &s, bool read_only)
{
    Chance chance;
    Bytes day = s.map;
    for (size_t i = 0; i < most_jobs; i++) {
        uint32_t chosen = 1 + chance.below((1u << std::min<size_t>(s.goals.size(), 3)) - 1);
        std::vector<uint32_t> goals;
        for (size_t g = 0; g < s.goals.size(); g++)
            if (g >= 3 || (chosen >> g & 1) != 0)
                goals.push_back(s.goals[g]);
        Bytes job;
        put_job(job, chance.below(s.places), read_only ? 0 : 236 * s.places, goals);
        if (day.size() + job.size() > longest)
            break;
        day.insert(day.end(), job.begin(), job.end());
    }
    return day;
}

// One day, reported by both, and the least times so far.
class Timed {
  public:
    explicit Timed(Bytes day) : day_(std::move(day)) {}

    bool turn(bool exported_first)
    {
        if (exported_first)
            time_exported();
        time_by_hand();
        if (!exported_first)
            time_exported();
        auto numbers = reporter_.figures.numbers();
        auto same = [](const r3_tally &x, const r3_tally &y) { return x.goal == y.goal && x.routes == y.routes && x.cost == y.cost; };
        return ended_ == 0 && other_ended_ == 0 && std::equal(numbers.begin(), numbers.end(), figures_.begin()) &&
               std::equal(tally_.begin(), tally_.end(), other_tally_.begin(), same);
    }

    double exported = 1e9, by_hand = 1e9;
    uint64_t jobs() const { return std::accumulate(figures_.begin() + 3, figures_.end(), uint64_t(0)); }
    uint64_t expansions() const { return figures_[2]; }

  private:
    void time_exported()
    {
        auto call = [&] {
            ended_ = r3_report(day_.data(), day_.size(), work_.data(), work_.size(), sheet_.data(), sheet_.size(), tally_.data(), tally_.size(),
                               figures_.data(), figures_.size());
        };
        exported = std::min(exported, seconds(call));
    }

    void time_by_hand()
    {
        auto call = [&] {
            other_ended_ = reporter_.report(day_.data(), day_.size(), work_.data(), work_.size(), sheet_.data(), sheet_.size(), other_tally_.data(),
                                            other_tally_.size());
        };
        by_hand = std::min(by_hand, seconds(call));
    }

    Bytes day_, sheet_ = Bytes(R3_BYTES);
    std::vector<uint32_t> work_ = std::vector<uint32_t>(R3_WORDS);
    std::vector<r3_tally> tally_ = std::vector<r3_tally>(R3_RECORDS), other_tally_ = tally_;
    std::vector<uint64_t> figures_ = std::vector<uint64_t>(R3_FIGURES);
    plain::Reporter reporter_;
    uint32_t ended_ = 0, other_ended_ = 0;
};

} // namespace

int main(int, char **words)
{
    std::ifstream file(words[1], std::ios::binary);
    Bytes warehouse((std::istreambuf_iterator<char>(file)), std::istreambuf_iterator<char>());
    std::vector<Site> sites = {site_of("warehouse", warehouse), site_of("grid", input_of(maps::grid(16, false, 60))),
                               site_of("shelves", input_of(maps::grid(32, true, 60))), site_of("random", input_of(maps::random(1000, 60)))};
    std::printf("%30s | %23s | %7s %7s\n%-9s %6s %6s %6s | %8s %8s ratio | %7s %7s\n", "", "whole day, us", "reading", "of", "map", "places", "bytes",
                "jobs", "report", "C++", "us", "whole");
    for (const Site &s : sites) {
        Timed whole(day_of(s, false)), reading(day_of(s, true));
        for (int turn = 0; turn < 40; turn++)
            if (!whole.turn(turn % 2 == 0) || !reading.turn(turn % 2 == 0)) {
                std::printf("%s: the two reports differ\n", s.name);
                return 1;
            }
        std::printf("%-9s %6u %6zu %6llu | %8.0f %8.0f %5.2f | %7.0f %6.2f\n", s.name, s.places, s.map.size(),
                    static_cast<unsigned long long>(whole.jobs()), whole.exported * 1e6, whole.by_hand * 1e6, whole.exported / whole.by_hand,
                    reading.exported * 1e6, reading.exported / whole.exported);
    }
    std::puts("reading: the same day with allowances of 0, so that each job is judged and loaded, and ends with its first query");
}
