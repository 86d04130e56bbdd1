// A mutator that knows records: most changes of single bytes break an input's framing, or leave an arc without its place.
#pragma once
#include <algorithm>
#include <random>

#include "records.hpp"

class Mutator {
  public:
    // changes so many bytes in place, as the fuzzer's LLVMFuzzerMutate does
    using Change = size_t(uint8_t *data, size_t size, size_t most);

    Mutator(Records records, unsigned seed, Change *change_bytes) : chance_(seed), change_bytes_(change_bytes), records_(std::move(records)) {}
    uint32_t below(size_t n) { return static_cast<uint32_t>(chance_() % n); }
    bool empty() const { return records_.empty(); }

    void mutate()
    {
        auto i = records_.begin() + middle(), j = records_.begin() + middle();
        uint32_t way = below(16);
        if (way < 2)
            std::swap(*i, *j);
        else if (way < 4)
            records_.erase(i);
        else if (way < 8)
            change(*records_.insert(i, Bytes(*j))); // one more arc, estimate, wait or table, like another
        else if (way < 9)
            records_.insert(i, some_default()); // a map may have none, and be accepted still
        else if (way < 10)
            change(records_.front());
        else if (way < 12)
            change(records_.back());
        else
            change(*i);
    }

    // mostly with the number of arcs in the head
    size_t write(uint8_t *out, size_t most)
    {
        if (!empty() && records_[0].size() == 8 && below(32) != 0)
            count_arcs(records_);
        size_t length = 0;
        for (const Bytes &r : records_)
            if (length + r.size() <= most) {
                std::copy(r.begin(), r.end(), out + length);
                length += r.size();
            }
        return length;
    }

  private:
    // mostly neither the head nor the job
    long middle() { return records_.size() > 2 && below(32) != 0 ? 1 + below(records_.size() - 2) : below(records_.size()); }

    // gives a field, or half of a longer one, another number
    void change(Bytes &r)
    {
        if (r.size() < 6)
            return;
        uint8_t *field = &r[4 + below(r.size() / 2 - 2) * 2];
        uint32_t places = records_[0].size() >= 6 ? plain::u16(&records_[0][4]) : 0, most = is_table(r) ? plain::largest_factor + 1 : places;
        switch (below(16)) {
        case 0:
            change_bytes_(field, 2, 2);
            break;
        case 1:
            r[2] ^= 1; // an arc to an estimate and back
            break;
        case 2:
            change_kind(r);
            break;
        default:
            plain::put16(field, below(2) == 0 ? below(most + 1) : plain::u16(field) + below(9) - 4);
            if (is_table(r) && below(2) == 0)
                put_in_order(r);
        }
    }

    // as large as an estimate may be, a little less or more, or small
    Bytes some_default()
    {
        uint32_t value = below(2) == 0 ? below(99) : plain::largest_estimate - 1 + below(3);
        Bytes r = {4, 0, 8, 0, 0, 0, 0, 0};
        plain::put16(&r[4], value);
        plain::put16(&r[6], value >> 16);
        return r;
    }

    // makes factors that may hold of those that there are
    static void put_in_order(Bytes &r)
    {
        plain::Factors factors = factors_of(r);
        std::sort(factors.begin(), factors.end());
        for (size_t c = 0; c < factors.size(); c++)
            plain::put16(&r[4 + 2 * c], std::clamp(factors[c], 1u, plain::largest_factor));
    }

    // gives an arc a class, or takes it away; makes a wait of an estimate or of a default, or an estimate of a wait
    void change_kind(Bytes &r)
    {
        constexpr uint8_t sizes[] = {0, 0, 10, 10, 0, 12, 8, 20, 8}, others[] = {0, 0, 5, 6, 0, 2, 3, 0, 6}; // by kind
        uint8_t kind = r[2], other = kind <= 8 ? others[kind] : 0;
        if (other == 0 || r.size() != sizes[kind])
            return;
        r.resize(sizes[other]);
        if (other == 5)
            plain::put16(&r[10], below(9));
        plain::put16(&r[0], sizes[other] - 4);
        r[2] = other;
    }

    std::minstd_rand chance_;
    Change *change_bytes_;
    Records records_;
};

// changes bytes where no fuzzer does
inline size_t some_bytes(uint8_t *data, size_t size, size_t)
{
    static std::minstd_rand chance;
    std::generate_n(data, size, [] { return static_cast<uint8_t>(chance() >> 8); });
    return size;
}

// an input of at most so many bytes: these records after one to three changes
inline Bytes mutated(const Records &records, unsigned seed, size_t most)
{
    Mutator mutator(records, seed, some_bytes);
    for (uint32_t i = 1 + mutator.below(3); i != 0 && !mutator.empty(); i--)
        mutator.mutate();
    Bytes input(most);
    input.resize(mutator.write(input.data(), most));
    return input;
}
