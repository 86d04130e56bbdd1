// What came how often, of things that all must come and beside which nothing may come.
#pragma once
#include <algorithm>
#include <cstdint>
#include <cstdlib>
#include <iostream>
#include <vector>

template <class Thing> class Tally {
  public:
    Tally(const char *name, const std::vector<Thing> &things) : name_(name)
    {
        for (const Thing &thing : things)
            counts_.push_back({thing, 0});
    }

    void count(const Thing &thing)
    {
        auto same = [&](const Count &c) { return c.thing == thing; };
        auto at = std::find_if(counts_.begin(), counts_.end(), same);
        if (at == counts_.end())
            other_++;
        else
            at->times++;
    }

    // prints the counts in one line; whether all came, and nothing else
    bool report() const
    {
        bool all = other_ == 0;
        const char *before = " ";
        std::cout << name_ << ':';
        for (const Count &c : counts_) {
            std::cout << before << c.thing << ": " << c.times;
            before = ", ";
            all = all && c.times != 0;
        }
        std::cout << (all ? "" : other_ == 0 ? "; something never came" : "; something else came") << std::endl;
        return all;
    }

  private:
    struct Count {
        Thing thing;
        uint64_t times;
    };
    const char *name_;
    uint64_t other_ = 0;
    std::vector<Count> counts_;
};

// The answers of a program that the fuzzer ends: at its end they are reported, and may make it fail.
class LastTally : public Tally<uint32_t> {
  public:
    using Tally::Tally;
    ~LastTally()
    {
        if (!report())
            std::_Exit(1);
    }
};
