// Fresh random maps through the map writer: writer [SEED]. Every call, also on damaged inputs and with too little lent, is held against the one by
// hand (plain_writer.hpp). Apart from that, each written map is held against what document 02 says of it: order and records; which maps are written
// alike; and that r3_route gives and leaves the same for it as for the map before. A seed that was printed gives the same maps again.
#include <map>
#include <string>
#include <tuple>

#include "compare.hpp"
#include "mutate.hpp"
#include "random_map.hpp"
#include "tally.hpp"

namespace {

using plain::Factors;
using plain::largest_estimate;

Arc arc_of(const Bytes &r, const Factors &factors)
{
    uint32_t last = plain::u16(&r[8]), lane_class = r[2] == 2 ? plain::none : plain::u16(&r[10]);
    return {plain::u16(&r[4]), plain::u16(&r[6]), lane_class == plain::none ? last : last * factors[lane_class], lane_class};
}

Bytes record_of(const Arc &a, const Factors &factors)
{
    Bytes r;
    put_arc(r, a, factors);
    return r;
}

Bytes record_of(const Factors &factors)
{
    Bytes r;
    put_factors(r, factors);
    return r;
}

// an estimate or a wait
bool has_value(const Bytes &r)
{
    return r[2] == 3 || r[2] == 6;
}

uint32_t value_of(const Bytes &r)
{
    return r[2] == 3 ? plain::u32(&r[6]) : plain::u16(&r[6]);
}

uint32_t default_of(const Bytes &r)
{
    return plain::u32(&r[4]);
}

// what an estimate or a wait says that can be left out: of a goal 0
uint32_t value_without(const Map &m, uint8_t kind, uint32_t place)
{
    return kind == 3 ? m.estimate_without(place) : 0;
}

// says what holds without it
bool is_idle(const Bytes &r, const Map &m)
{
    if (has_value(r))
        return value_of(r) == value_without(m, r[2], plain::u16(&r[4]));
    return is_table(r) ? factors_of(r) == plain::fixed_factors : is_default(r) && default_of(r) == 0;
}

Bytes record_of(uint8_t kind, uint32_t place, uint32_t value)
{
    Bytes r;
    (kind == 3 ? put_estimate : put_wait)(r, place, value);
    return r;
}

Bytes record_of_default(uint32_t value)
{
    Bytes r;
    put_default(r, value);
    return r;
}

// by from, to, cost under these factors, kind and the remaining fields
bool is_in_order(Records::iterator first, Records::iterator last, const Factors &factors)
{
    auto order = [&](const Bytes &x) {
        Arc a = arc_of(x, factors);
        return std::tuple(a.from, a.to, a.cost, x[2], plain::u16(&x[8]), a.lane_class);
    };
    return std::is_sorted(first, last, [&](const Bytes &r, const Bytes &s) { return order(r) < order(s); });
}

// head, arcs in order, estimates by place and none twice, waits alike, factors, default, job: the same records, but for those that say what holds
// without them
bool is_written_form(Records records, Records written, const Map &m)
{
    if (records.size() < 2 || written.size() < 2 || written.front() != records.front() || written.back() != records.back())
        return false;
    auto last = written.end() - 1, arcs = std::find_if_not(written.begin() + 1, last, is_arc);
    auto kind_and_place = [](const Bytes &r) { return std::tuple(r[2], has_value(r) ? plain::u16(&r[4]) : 0); };
    auto not_rising = [&](const Bytes &r, const Bytes &s) { return kind_and_place(r) >= kind_and_place(s); };
    if (!is_in_order(written.begin() + 1, arcs, m.factors) || std::any_of(arcs, last, is_arc) || std::adjacent_find(arcs, last, not_rising) != last)
        return false;
    auto idle = [&](const Bytes &r) { return is_idle(r, m); };
    records.erase(std::remove_if(records.begin() + 1, records.end() - 1, idle), records.end() - 1);
    std::sort(records.begin() + 1, records.end() - 1);
    std::sort(written.begin() + 1, written.end() - 1);
    return records == written;
}

class Test {
  public:
    explicit Test(uint32_t seed) : maps_(seed) {}
    uint32_t below(size_t n) { return maps_.below(n); }

    // what is wrong with a new map, or null
    const char *wrong(uint32_t places)
    {
        make(places);
        Bytes written = written_from(records_);
        if (written.empty())
            return "not accepted, or not as by hand";
        if (!is_written_form(records_, split(written.data(), written.size()), map_))
            return "not in order, or not the same records";
        if (!short_areas())
            return "not refused with too little lent";
        for (int i = 0; i < (places <= 400 ? 4 : 1); i++)
            if (!damaged())
                return "damaged, it is not answered as by hand";
        if (written_from(split(written.data(), written.size())) != written)
            return "written again it is another";
        if (!same_routes(join(records_), written))
            return "another route from what was written";
        return wrong_change(written);
    }

    // prints how often each number came, and how often each change was made; whether all did
    bool report() const
    {
        bool answers = answers_.report(), routes = routes_.report(), made = made_.report();
        return answers && routes && made;
    }

    const Map &map() const { return map_; }

  private:
    struct Change {
        const char *name;
        bool alike;                    // the map says the same after it
        bool (Test::*make)(Records &); // whether there is what it takes
    };
    static const std::vector<Change> changes;

    static std::vector<std::string> change_names()
    {
        std::vector<std::string> names;
        for (const Change &change : changes)
            names.push_back(change.name);
        return names;
    }

    void make(uint32_t places)
    {
        map_ = maps_.map(static_cast<Maps::Kind>(below(Maps::kinds)), places);
        maps_.add_twins(map_);
        const uint32_t allowances[] = {236 * places, 236 * places, below(20 * places), 0xffffffff};
        map_.allowance = allowances[below(4)];
        Bytes input = input_of(map_);
        records_ = shuffled(split(input.data(), input.size()));
    }

    // the head stays first and the job last
    Records shuffled(Records records)
    {
        maps_.shuffle(records.begin() + 1, records.end() - 1);
        return records;
    }

    size_t words(const Bytes &input) const { return R3_WORDS_OF(plain::u16(&input[4]), plain::u16(&input[6])); }

    bool call(const Bytes &input, size_t words, size_t bytes)
    {
        size_t room = below(4) == 0 ? below(8) : 9; // short answers too
        bool same = comparison_.same(input.data(), input.size(), words, bytes, room);
        answers_.count(comparison_.answer.number);
        return same;
    }

    // none, if it is refused or not as by hand
    Bytes written_from(const Records &records)
    {
        Bytes input = join(records);
        auto more = [&] { return below(2) == 0 ? 0 : below(Comparison<Writing>::spare + 1); };
        if (!call(input, words(input) + more(), input.size() + more()) || comparison_.answer.number != 0)
            return {};
        return Bytes(comparison_.written, comparison_.written + comparison_.answer.bytes);
    }

    // just too little, in either area or in both, and any less
    bool short_areas()
    {
        Bytes input = join(records_);
        size_t enough = words(input), length = input.size();
        auto refused = [&](size_t words, size_t bytes, uint32_t number) {
            return call(input, words, bytes) && comparison_.answer.number == number;
        };
        return refused(enough - 1, length, 14) && refused(enough, length - 1, 15) && refused(enough - 1, length - 1, 14) &&
               refused(below(enough), below(length), 14) && refused(enough, below(length), 15);
    }

    bool damaged()
    {
        Bytes input = mutated(records_, below(1 << 30), Writing::most_bytes);
        if (below(16) == 0)
            input.resize(below(input.size() + 1));
        size_t places = 1, arcs = 0;
        if (input.size() >= 8) {
            places = std::min(plain::u16(&input[4]), 4096u);
            arcs = std::min(plain::u16(&input[6]), 16384u);
        }
        return call(input, around(R3_WORDS_OF(places, arcs)), around(input.size()));
    }

    // one more, just as much or one less
    size_t around(size_t n) { return n + 1 - std::min<size_t>(below(3), n + 1); }

    // all that r3_route gives and leaves
    using Routed = std::tuple<uint32_t, Bytes, std::vector<uint32_t>, std::vector<uint32_t>>;
    Routed routed(const Bytes &input, size_t words, size_t bytes)
    {
        uint32_t *work = work_.lend(words), *answer = answer_.lend(7);
        uint8_t *sheet = sheet_.lend(bytes);
        uint32_t number = r3_route(input.data(), input.size(), work, words, sheet, bytes, answer, 7);
        routes_.count(number);
        return {number, Bytes(sheet, sheet + bytes), {work, work + words}, {answer, answer + 7}};
    }

    bool same_routes(const Bytes &before, const Bytes &after)
    {
        size_t enough = words(before), sheet = R3_BYTES_OF(map_.places);
        auto same = [&](size_t words, size_t bytes) { return routed(before, words, bytes) == routed(after, words, bytes); };
        return same(enough + below(2), sheet + below(2)) && same(enough - 1, sheet + 1 - below(3)) && same(enough, sheet - 1);
    }

    // what is wrong with a changed map: one that says the same must be written alike, any other must not
    const char *wrong_change(const Bytes &written)
    {
        for (const Change &change : changes) {
            if (map_.places > 400 && below(2) == 0) // they take their time
                continue;
            Records other = records_;
            if (!(this->*change.make)(other))
                continue;
            count_arcs(other);
            made_.count(change.name);
            Bytes now = written_from(other);
            if (now.empty())
                return "changed, it is not accepted, or not as by hand";
            if ((now == written) != change.alike)
                return change.name;
        }
        return nullptr;
    }

    bool shuffle(Records &records)
    {
        records = shuffled(records);
        return true;
    }

    // an estimate, of a place that is no goal in most cases, or a wait
    template <uint8_t kind> bool toggle_idle(Records &records)
    {
        uint32_t v = below(map_.places);
        return toggle(records, record_at(records, kind, v), record_of(kind, v, value_without(map_, kind, v)));
    }

    bool toggle_goal(Records &records)
    {
        uint32_t g = map_.goals[below(map_.goals.size())];
        return toggle(records, record_at(records, 3, g), record_of(3, g, 0));
    }

    bool toggle_fixed(Records &records)
    {
        return toggle(records, std::find_if(records.begin(), records.end(), is_table), record_of(plain::fixed_factors));
    }

    bool toggle_no_default(Records &records)
    {
        return toggle(records, std::find_if(records.begin(), records.end(), is_default), record_of_default(0));
    }

    // under a default it is an estimate as any other
    bool toggle_own_zero(Records &records)
    {
        uint32_t v = below(map_.places);
        return map_.estimate_without(v) != 0 && toggle(records, record_at(records, 3, v), record_of(3, v, 0));
    }

    // puts a record in where there is none, and leaves it out where it is the same
    bool toggle(Records &records, Records::iterator at, const Bytes &record)
    {
        if (at != records.end() && *at != record)
            return false;
        if (at != records.end())
            records.erase(at);
        else
            records.insert(somewhere(records), record);
        return true;
    }

    bool change_lane(Records &records)
    {
        auto at = some_arc(records);
        if (at == records.end())
            return false;
        const Bytes before = *at;
        for (int tries = 0; tries < 20; tries++) { // with one place and a long wait there may be no other
            *at = record_of(another(arc_of(before, map_.factors)), map_.factors);
            if (*at != before && map_.cost(arc_of(*at, map_.factors)) <= 65535)
                return true;
        }
        return false;
    }

    bool drop_lane(Records &records)
    {
        auto at = some_arc(records);
        if (at == records.end())
            return false;
        records.erase(at);
        return true;
    }

    bool double_lane(Records &records)
    {
        auto at = some_arc(records);
        if (at == records.end() || map_.arcs.size() == 16384)
            return false;
        records.insert(somewhere(records), Bytes(*at));
        return true;
    }

    bool change_estimate(Records &records)
    {
        uint32_t v = below(map_.places);
        return !map_.is_goal(v) && change_value(records, 3, v, largest_estimate);
    }

    bool change_wait(Records &records)
    {
        uint32_t v = below(map_.places), longest = Maps::longest_waits(map_)[v];
        return longest != 0 && change_value(records, 6, v, longest);
    }

    bool change_value(Records &records, uint8_t kind, uint32_t v, uint32_t largest)
    {
        auto at = record_at(records, kind, v);
        const uint32_t without = value_without(map_, kind, v);
        uint32_t before = without, now = below(largest + 1);
        if (at != records.end()) {
            before = value_of(*at);
            records.erase(at);
        }
        if (before != without && below(2) == 0)
            now = without;
        else if (below(2) == 0 || now == before)
            now = before == largest ? before - 1 : before + 1;
        if (now != without || below(2) == 0)
            records.insert(somewhere(records), record_of(kind, v, now));
        return true;
    }

    // to another, which may be none; where every place has its own, no estimate changes by that
    bool change_default(Records &records)
    {
        uint32_t before = map_.default_estimate, now = below(2) == 0 ? before + 1 : below(2) == 0 ? 0 : below(largest_estimate + 1);
        if (now == before || now > largest_estimate)
            return false;
        records.erase(std::remove_if(records.begin(), records.end(), is_default), records.end());
        if (now != 0 || below(2) == 0)
            records.insert(somewhere(records), record_of_default(now));
        return true;
    }

    // every place gets an estimate of its own, the same as before, and the default goes
    bool spell_default(Records &records)
    {
        if (map_.default_estimate == 0)
            return false;
        Records own;
        for (uint32_t v = 0; v < map_.places; v++)
            if (map_.estimate[v] == plain::none)
                own.push_back(record_of(3, v, map_.estimate_at(v)));
        records.erase(std::remove_if(records.begin(), records.end(), is_default), records.end());
        records.insert(records.end() - 1, own.begin(), own.end());
        return shuffle(records);
    }

    // lanes keep what their records say
    bool change_factors(Records &records)
    {
        Factors now = below(4) == 0 ? plain::fixed_factors : maps_.some_factors();
        auto dear = [&](const Bytes &r) { return is_arc(r) && map_.cost(arc_of(r, now)) > 65535; };
        if (now == map_.factors || std::any_of(records.begin(), records.end(), dear))
            return false;
        records.erase(std::remove_if(records.begin(), records.end(), is_table), records.end());
        if (now != plain::fixed_factors || below(2) == 0)
            records.insert(somewhere(records), record_of(now));
        return true;
    }

    bool add_place(Records &records)
    {
        if (map_.places == 4096)
            return false;
        plain::put16(&records[0][4], map_.places + 1);
        return true;
    }

    // another allowance, another start, or a goal less
    bool change_job(Records &records)
    {
        Bytes &job = records.back();
        uint32_t way = below(3), goals = plain::u16(&job[10]);
        if (way == 0) {
            job[6 + below(4)] ^= static_cast<uint8_t>(1 << below(8));
        } else if (way == 1) {
            plain::put16(&job[4], (map_.start + 1) % map_.places);
        } else if (goals > 1) {
            auto goal = job.begin() + 12 + 2 * below(goals);
            job.erase(goal, goal + 2);
            plain::put16(&job[0], static_cast<uint32_t>(job.size()) - 4);
            plain::put16(&job[10], goals - 1);
        }
        return job != records_.back();
    }

    Arc another(Arc a)
    {
        switch (below(4)) {
        case 0:
            a.from = below(map_.places);
            break;
        case 1:
            a.to = below(map_.places);
            break;
        case 2:
            a.cost = std::min(1 + below(std::min(a.cost + 2, 65535u)), 65535u);
            a.lane_class = maps_.some_class(a.cost, map_.factors);
            break;
        default: // at the same cost
            a.lane_class = maps_.some_class(a.cost, map_.factors);
        }
        return a;
    }

    // neither before the head nor behind the job
    Records::iterator somewhere(Records &records) { return records.begin() + 1 + below(records.size() - 1); }

    Records::iterator some_arc(Records &records)
    {
        Records::iterator from = somewhere(records), at = std::find_if(from, records.end(), is_arc);
        return at != records.end() ? at : std::find_if(records.begin(), records.end(), is_arc);
    }

    static Records::iterator record_at(Records &records, uint8_t kind, uint32_t place)
    {
        return std::find_if(records.begin(), records.end(), [&](const Bytes &r) { return r[2] == kind && plain::u16(&r[4]) == place; });
    }

    Maps maps_;
    Map map_;
    Records records_;
    Comparison<Writing> comparison_;
    Area<uint8_t> sheet_{R3_BYTES + 1};
    Area<uint32_t> work_{R3_WORDS + 1}, answer_{7};
    Tally<uint32_t> answers_{"writer: answers", {0, 1, 2, 3, 4, 5, 6, 7, 8, 9, 20, 22, 21, 10, 11, 12, 13, 14, 15}};
    Tally<uint32_t> routes_{"writer: routes", {0, 14, 15, 16, 17}};
    Tally<std::string> made_{"writer: changes", change_names()};
};

const std::vector<Test::Change> Test::changes = {
    {"shuffled", true, &Test::shuffle},
    {"estimate that holds without it put in or left out", true, &Test::toggle_idle<3>},
    {"estimate of a goal put in or left out", true, &Test::toggle_goal},
    {"wait of 0 put in or left out", true, &Test::toggle_idle<6>},
    {"fixed factors put in or left out", true, &Test::toggle_fixed},
    {"default of 0 put in or left out", true, &Test::toggle_no_default},
    {"lane changed", false, &Test::change_lane},
    {"lane dropped", false, &Test::drop_lane},
    {"lane doubled", false, &Test::double_lane},
    {"estimate changed", false, &Test::change_estimate},
    {"estimate of 0 under a default put in or left out", false, &Test::toggle_own_zero},
    {"default changed", false, &Test::change_default},
    {"default spelled out", false, &Test::spell_default},
    {"wait changed", false, &Test::change_wait},
    {"factors changed", false, &Test::change_factors},
    {"place added", false, &Test::add_place},
    {"job changed", false, &Test::change_job},
};

} // namespace

int main(int count, char **words)
{
    uint32_t seed = count > 1 ? static_cast<uint32_t>(std::stoul(words[1])) : std::random_device()();
    std::printf("writer: seed %u\n", seed);
    std::fflush(stdout);
    Test test(seed);
    for (uint32_t turn = 0; turn < 4000; turn++) {
        uint32_t most = turn % 20 == 0 ? 4096 : turn % 4 == 0 ? 400 : 20;
        if (const char *what = test.wrong(turn % 200 == 0 ? most : 1 + test.below(most))) {
            const Map &m = test.map();
            std::printf("writer: seed %u, map %u is wrong: %s\n", seed, turn, what);
            std::printf("writer: %s, %u places, %zu arcs, allowance %u\n", m.name, m.places, m.arcs.size(), m.allowance);
            return 1;
        }
    }
    return !test.report();
}
