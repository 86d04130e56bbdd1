// What a longer allowance buys, document 02, paper 4: allowances [SEED]. On small random maps r3_route gets every allowance up to more than enough,
// on damaged inputs a few that rise. For one input as much is lent in every call, but it holds something else. A seed that was printed gives the
// same maps again.
#include <string>

#include "compare.hpp"
#include "mutate.hpp"
#include "random_map.hpp"
#include "tally.hpp"

namespace {

constexpr uint32_t most_allowance = 0xffffffff;

// what a call gives, and the sheet that it writes
struct Result {
    plain::Answer answer;
    Bytes sheet;

    bool spent() const { return answer.number == 16; }
    bool refused() const { return answer.number != 0 && answer.number != 16 && answer.number != 17; }
    bool same(const Result &other) const { return answer.numbers() == other.answer.numbers() && sheet == other.sheet; }
};

// a job, which may run past the end of the input behind its allowance
bool has_allowance(const Bytes &r)
{
    return r.size() >= 10 && plain::u16(&r[0]) >= 6 && plain::u16(&r[2]) == 4;
}

class Test {
  public:
    explicit Test(uint32_t seed) : maps_(seed) {}
    uint32_t below(size_t n) { return maps_.below(n); }

    // what is wrong with a new map, or null: as it is, and damaged
    const char *wrong(uint32_t places)
    {
        map_ = maps_.map(static_cast<Maps::Kind>(below(Maps::kinds)), places);
        const char *what = wrong_whole();
        return what != nullptr ? what : wrong_damaged();
    }

    // prints how often each number came, and what else has to; whether all did
    bool report() const
    {
        bool answers = answers_.report(), damaged = damaged_.report(), seen = seen_.report();
        return answers && damaged && seen;
    }

    const Map &map() const { return map_; }

  private:
    // each allowance up to one more than the total, and the largest
    const char *wrong_whole()
    {
        take(input_of(map_));
        std::vector<long> far = least_costs(map_);
        overstates_ = overstates(map_, far);
        cheapest_ = far[map_.start];
        if (!call(236 * map_.places))
            return "something has changed that must stay";
        if (now_.spent() || now_.refused())
            return "neither a route nor no route with an allowance that is never spent";
        const Result whole = now_;
        if (whole.answer.expansions == 0)
            seen_.count("total of 0");
        plain::Answer before;
        before.floor = first_floor();
        for (uint32_t allowance = 0; allowance <= whole.answer.expansions + 1; allowance++) {
            if (const char *what = wrong_allowance(allowance, before, whole))
                return what;
            before = now_.answer;
        }
        return wrong_allowance(most_allowance, before, whole);
    }

    // before: the answer with less
    const char *wrong_allowance(uint32_t allowance, const plain::Answer &before, const Result &whole)
    {
        if (!call(allowance))
            return "something has changed that must stay";
        answers_.count(now_.answer.number);
        if (now_.spent() != (allowance < whole.answer.expansions))
            return "not spent just where the allowance is below the total";
        if (now_.spent())
            return wrong_spent(before);
        return now_.same(whole) ? nullptr : "another answer or sheet with another allowance that is enough";
    }

    const char *wrong_spent(const plain::Answer &before)
    {
        const plain::Answer &a = now_.answer;
        if (a.numbers() != std::array<uint32_t, 7>{16, 0, 0, a.floor, map_.allowance, a.queries, 0})
            return "spent, but with other expansions, or with more than floor and queries";
        if (map_.allowance == 0 && (a.queries != 1 || a.floor != first_floor()))
            return "with no allowance, not one query with the start's estimate as its floor";
        if (a.floor < before.floor || a.queries < before.queries)
            return "floor or queries fall";
        if (a.floor > before.floor && a.queries == before.queries)
            return "the floor rises without a query more";
        if (a.floor > cheapest_ && !overstates_)
            return "the floor is above the least cost";
        if (a.floor > before.floor)
            seen_.count("floor rises");
        if (a.floor >= cheapest_)
            seen_.count(a.floor == cheapest_ ? "floor is the least cost" : "floor is above it, since an estimate overstates");
        return nullptr;
    }

    uint32_t first_floor() const { return map_.estimate_at(map_.start); }

    // allowances that rise, on the map with up to three damages and sometimes with too little lent
    const char *wrong_damaged()
    {
        Bytes input = input_of(map_);
        for (uint32_t i = below(4); i != 0 && !input.empty(); i--)
            input = damaged(input);
        if (!take(input))
            return nullptr;
        if (below(4) == 0)
            words_ = below(words_);
        if (below(4) == 0)
            bytes_ = below(bytes_);
        Result before;
        for (uint32_t allowance : {0u, 1u, 2 + below(30), 32u << below(27), most_allowance}) {
            if (!call(allowance))
                return "damaged, and something has changed that must stay";
            damaged_.count(now_.answer.number);
            if (const char *what = allowance == 0 ? nullptr : wrong_pair(before))
                return what;
            before = now_;
        }
        return before.spent() ? "damaged, and the largest allowance is spent" : nullptr;
    }

    // before: with less allowance
    const char *wrong_pair(const Result &before) const
    {
        if (now_.spent() && !before.spent())
            return "damaged, and spent with more allowance alone";
        if (now_.refused() && before.spent())
            return "damaged, and refused with more allowance alone";
        if (now_.spent() && now_.answer.floor < before.answer.floor)
            return "damaged, and the floor falls";
        if (!before.spent() && !now_.same(before))
            return "damaged, and another answer or sheet with more allowance";
        return nullptr;
    }

    Bytes damaged(Bytes input)
    {
        Records records = split(input.data(), input.size());
        Bytes &last = records.back();
        uint32_t way = below(9), at = below(input.size()), some = below(40);
        switch (way) {
        case 0: // mostly a second job
            records.insert(records.begin() + below(records.size() + 1), Bytes(last));
            return join(records);
        case 1: // mostly another length for the job
            if (last.size() >= 2)
                plain::put16(&last[0], below(2) == 0 ? some : below(65536));
            return join(records);
        case 2: // mostly another start, another goal or another number of goals
            if (last.size() >= 6)
                plain::put16(&last[4 + 2 * below(last.size() / 2 - 2)], below(map_.places));
            return join(records);
        case 3: // mostly within the job
            input.resize(below(4) == 0 ? at : input.size() - 1 - below(last.size()));
            return input;
        case 4:
            some_bytes(&input[at], 1, 1);
            return input;
        case 5:
            input.insert(input.end() - at, 1 + some % 6, static_cast<uint8_t>(some));
            return input;
        default:
            return mutated(records, below(1 << 30), most_input);
        }
    }

    // whether some job has an allowance, which calls then set; what is lent is enough for the map before any damage
    bool take(const Bytes &input)
    {
        std::vector<size_t> jobs;
        size_t at = 0;
        for (const Bytes &r : split(input.data(), input.size())) {
            if (has_allowance(r)) {
                jobs.push_back(at);
                if (r.size() < 4 + plain::u16(&r[0]))
                    seen_.count("job runs past the end");
            }
            at += r.size();
        }
        if (jobs.size() > 1)
            seen_.count("two jobs");
        input_ = input;
        allowance_ = jobs.empty() ? 0 : jobs[below(jobs.size())] + 6;
        words_ = or_more(R3_WORDS_OF(map_.places, map_.arcs.size()));
        bytes_ = or_more(R3_BYTES_OF(map_.places));
        return !jobs.empty();
    }

    size_t or_more(size_t n) { return below(2) == 0 ? n : n + below(spare + 1); }

    // whether nothing has changed but a sheet that was written and, unless the call is refused, the work area
    bool call(uint32_t allowance)
    {
        map_.allowance = allowance;
        plain::put16(&input_[allowance_], allowance);
        plain::put16(&input_[allowance_ + 2], allowance >> 16);
        const std::vector<uint32_t> work = contents<uint32_t>(words_);
        const Bytes sheet = contents<uint8_t>(bytes_);
        const uint8_t *lent_input = input_area_.put(input_.data(), input_.size());
        uint32_t *lent_work = work_area_.put(work.data(), words_), *n = numbers_area_.lend(7);
        uint8_t *lent_sheet = sheet_area_.put(sheet.data(), bytes_);
        uint32_t number = r3_route(lent_input, input_.size(), lent_work, words_, lent_sheet, bytes_, n, 7);
        now_.answer = {n[0], n[1], n[2], n[3], n[4], n[5], n[6]};
        size_t written = now_.spent() || now_.refused() ? 0 : std::min<size_t>(now_.answer.bytes, bytes_);
        now_.sheet.assign(lent_sheet, lent_sheet + written);
        return number == now_.answer.number && std::equal(input_.begin(), input_.end(), lent_input) &&
               std::equal(sheet.begin() + written, sheet.end(), lent_sheet + written) &&
               (!now_.refused() || std::equal(work.begin(), work.end(), lent_work));
    }

    // sometimes zeros, as a call leaves them
    template <class T> std::vector<T> contents(size_t length)
    {
        std::vector<T> all(length);
        if (below(8) != 0)
            std::generate(all.begin(), all.end(), [&] { return static_cast<T>(below(size_t{1} << 32)); });
        return all;
    }

    static constexpr size_t spare = 256, most_input = 1 << 16; // three damages make no map of 12 places longer
    Maps maps_;
    Map map_;
    bool overstates_ = false; // then a floor may be above the cheapest cost
    long cheapest_ = 0;
    Bytes input_;
    size_t allowance_ = 0, words_ = 0, bytes_ = 0; // where it stands in the input, and what is lent
    Result now_;
    Area<uint8_t> input_area_{most_input}, sheet_area_{R3_BYTES};
    Area<uint32_t> work_area_{R3_WORDS}, numbers_area_{7};
    Tally<uint32_t> answers_{"allowances: answers", {0, 16, 17}};
    Tally<uint32_t> damaged_{"allowances: damaged", {0, 1, 2, 3, 4, 5, 6, 7, 8, 9, 20, 22, 21, 10, 11, 12, 13, 14, 15, 16, 17}};
    Tally<std::string> seen_{"allowances: seen",
                             {"total of 0", "floor rises", "floor is the least cost", "floor is above it, since an estimate overstates",
                              "job runs past the end", "two jobs"}};
};

} // namespace

int main(int count, char **words)
{
    uint32_t seed = count > 1 ? static_cast<uint32_t>(std::stoul(words[1])) : std::random_device()();
    std::printf("allowances: seed %u\n", seed);
    std::fflush(stdout);
    Test test(seed);
    for (uint32_t turn = 0; turn < 20000; turn++) {
        if (const char *what = test.wrong(1 + test.below(12))) {
            const Map &m = test.map();
            std::printf("allowances: seed %u, map %u is wrong: %s\n", seed, turn, what);
            std::printf("allowances: %s, %u places, %zu arcs, allowance %u\n", m.name, m.places, m.arcs.size(), m.allowance);
            return 1;
        }
    }
    return !test.report();
}
