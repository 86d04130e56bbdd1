// Fresh random maps against two other searches: maps [SEED]. The Boost Graph Library says whether a goal can be reached, and at what least cost;
// plain.hpp says all seven numbers and what the lent areas hold after the call. A seed that was printed gives the same maps again.
#include <map>

#include "compare.hpp"
#include "random_map.hpp"

namespace {

class Test {
  public:
    explicit Test(uint32_t seed) : maps_(seed) {}
    uint32_t below(size_t n) { return maps_.below(n); }

    // what is wrong with a new map, or null: with an allowance that is never spent, with just enough, with very much, and with less
    const char *wrong(uint32_t places)
    {
        map_ = maps_.map(static_cast<Maps::Kind>(below(Maps::kinds)), places);
        if (!call(236 * places))
            return "not as by hand";
        if (!as_boost())
            return "not as Boost says";
        decided_ += comparison_.arcs_decide();
        waited_ += waits();
        factored_ += has_factor();
        defaulted_ += needs_default();
        const plain::Answer whole = comparison_.answer;
        for (uint32_t enough : {whole.expansions, 0xffffffffu})
            if (!call(enough) || comparison_.answer.numbers() != whole.numbers())
                return "another answer with another allowance";
        for (uint32_t less : {whole.expansions - 1, below(whole.expansions + 1)})
            if (less < whole.expansions && (!call(less) || comparison_.answer.number != 16 || comparison_.answer.expansions != less))
                return "not as it should be with less allowance";
        return nullptr;
    }

    // prints how often each number came, how often the number of arcs decided, how many routes have a wait and a factor of the map's own, and how
    // many answers go by the default; whether each number came with each kind, and the other four at all
    bool report() const
    {
        bool all = decided_ != 0 && waited_ != 0 && factored_ != 0 && defaulted_ != 0;
        std::printf("maps: %u routes would be others if arcs were not counted; on %u there is a wait; %u cost otherwise by the fixed factors\n",
                    decided_, waited_, factored_);
        std::printf("maps: %u answers would be others without the default\n", defaulted_);
        for (const char *name : Maps::names) {
            std::printf("maps: %-18s", name);
            for (uint32_t number : {0u, 16u, 17u}) {
                auto count = counts_.find({name, number});
                all = all && count != counts_.end();
                std::printf(" %6u calls answer %2u", count == counts_.end() ? 0 : count->second, number);
            }
            std::printf("\n");
        }
        return all;
    }

    const Map &map() const { return map_; }

  private:
    bool call(uint32_t allowance)
    {
        map_.allowance = allowance;
        std::vector<uint8_t> input = input_of(map_);
        size_t words = R3_WORDS_OF(map_.places, map_.arcs.size()), bytes = R3_BYTES_OF(map_.places);
        if (below(3) == 0)
            words += below(Comparison<Routing>::spare + 1);
        if (below(3) == 0)
            bytes += below(Comparison<Routing>::spare + 1);
        bool same = comparison_.same(input.data(), input.size(), words, bytes, 9);
        counts_[{map_.name, comparison_.answer.number}]++;
        return same;
    }

    bool as_boost() const
    {
        const plain::Answer &a = comparison_.answer;
        std::vector<long> far = least_costs(map_);
        long cheapest = far[map_.start];
        if (cheapest == unreached)
            return a.number == 17;
        bool dearer = overstates(map_, far); // then the route may be
        return a.number == 0 && (dearer ? a.cost >= cheapest : a.cost == cheapest) && is_route();
    }

    // the sheet's places lead from the start to a goal along arcs whose least costs sum to the cost
    bool is_route() const
    {
        const uint8_t *sheet = comparison_.written;
        uint32_t last = plain::u16(sheet + comparison_.answer.bytes - 2);
        return plain::u16(sheet + 10) == map_.start && along_sheet([&](const Arc &a) { return map_.cost(a); }) == comparison_.answer.cost &&
               std::binary_search(map_.goals.begin(), map_.goals.end(), last);
    }

    // the least costs from place to place of the sheet, summed; none where no arc leads to the next
    template <class Cost> uint32_t along_sheet(Cost cost) const
    {
        const uint8_t *sheet = comparison_.written;
        uint32_t sum = 0;
        for (uint32_t i = 12; i < comparison_.answer.bytes; i += 2) {
            uint32_t least = plain::none;
            for (const Arc &a : map_.arcs)
                if (a.from == plain::u16(sheet + i - 2) && a.to == plain::u16(sheet + i))
                    least = std::min(least, cost(a));
            if (least == plain::none)
                return plain::none;
            sum += least;
        }
        return sum;
    }

    // whether the route leaves a place that has a wait
    bool waits() const
    {
        const uint8_t *sheet = comparison_.written;
        uint32_t last = comparison_.answer.bytes - 2, i = 10;
        while (i < last && map_.wait_at(plain::u16(sheet + i)) == 0)
            i += 2;
        return i < last;
    }

    // whether the same places would cost something else by the fixed factors
    bool has_factor() const
    {
        auto cost = [&](const Arc &a) {
            uint32_t lane = a.lane_class == plain::none ? a.cost : a.cost / map_.factors[a.lane_class] * plain::fixed_factors[a.lane_class];
            return lane + map_.wait_at(a.from);
        };
        return comparison_.answer.number == 0 && map_.factors != plain::fixed_factors && along_sheet(cost) != comparison_.answer.cost;
    }

    // whether the call by hand gives other numbers if the places without an estimate have 0
    bool needs_default()
    {
        if (map_.default_estimate == 0)
            return false;
        Map bare = map_;
        bare.default_at = plain::none;
        std::vector<uint8_t> input = input_of(bare), sheet(R3_BYTES_OF(map_.places));
        std::vector<uint32_t> work(R3_WORDS_OF(map_.places, map_.arcs.size()));
        plain::Answer a = router_.route(input.data(), input.size(), work.data(), work.size(), sheet.data(), sheet.size());
        return a.numbers() != comparison_.answer.numbers();
    }

    uint32_t decided_ = 0, waited_ = 0, factored_ = 0, defaulted_ = 0;
    plain::Router router_;
    Maps maps_;
    Map map_;
    Comparison<Routing> comparison_;
    std::map<std::pair<std::string, uint32_t>, uint32_t> counts_;
};

} // namespace

int main(int count, char **words)
{
    uint32_t seed = count > 1 ? static_cast<uint32_t>(std::stoul(words[1])) : std::random_device()();
    std::printf("maps: seed %u\n", seed);
    std::fflush(stdout);
    Test test(seed);
    for (uint32_t turn = 0; turn < 20000; turn++) {
        uint32_t most = turn % 20 == 0 ? 4096 : turn % 4 == 0 ? 400 : 20;
        if (const char *what = test.wrong(turn % 200 == 0 ? most : 1 + test.below(most))) {
            const Map &m = test.map();
            std::printf("maps: seed %u, map %u is wrong: %s\n", seed, turn, what);
            std::printf("maps: %s, %u places, %zu arcs, allowance %u\n", m.name, m.places, m.arcs.size(), m.allowance);
            return 1;
        }
    }
    return !test.report();
}
