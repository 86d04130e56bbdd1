// An exported call and the same call by hand, timed on one input.
#pragma once
#include <cmath>
#include <cstdio>
#include <ctime>
#include <functional>

#include "calls.hpp"

// Elapsed time: the fastest of many calls is one that nothing interrupted. A thread's processor time jumps on some virtual machines, so that a call
// seems to take no time at all.
inline double seconds(const std::function<void()> &call)
{
    timespec before, after;
    clock_gettime(CLOCK_MONOTONIC, &before);
    call();
    clock_gettime(CLOCK_MONOTONIC, &after);
    return static_cast<double>(after.tv_sec - before.tv_sec) + 1e-9 * static_cast<double>(after.tv_nsec - before.tv_nsec);
}

// With the areas of both, and the least times so far.
template <class Call> class Pair {
  public:
    Pair(std::vector<uint8_t> input, size_t words, size_t bytes)
        : input_(std::move(input)), out_(bytes, 1), other_out_(out_), work_(words, 1), other_work_(work_)
    {
    }

    // the one that comes second finds the input in the cache
    void turn(bool exported_first)
    {
        if (exported_first)
            time_exported();
        time_by_hand();
        if (!exported_first)
            time_exported();
    }

    // both gave the same answer, of the number that is due, and left the same areas
    bool agree(uint32_t number) const
    {
        return seven_ == answer_.numbers() && work_ == other_work_ && out_ == other_out_ && answer_.number == number;
    }

    double exported() const { return exported_; }
    double by_hand() const { return by_hand_; }
    double ratio() const { return exported_ / by_hand_; }
    const plain::Answer &answer() const { return answer_; }

  private:
    void time_exported()
    {
        auto call = [&] { Call::exported(input_.data(), input_.size(), work_.data(), work_.size(), out_.data(), out_.size(), seven_.data(), 7); };
        exported_ = std::min(exported_, seconds(call));
    }

    void time_by_hand()
    {
        auto call = [&] {
            answer_ = call_.by_hand(input_.data(), input_.size(), other_work_.data(), other_work_.size(), other_out_.data(), other_out_.size());
        };
        by_hand_ = std::min(by_hand_, seconds(call));
    }

    std::vector<uint8_t> input_, out_, other_out_;
    std::vector<uint32_t> work_, other_work_;
    std::array<uint32_t, 7> seven_{};
    Call call_;
    plain::Answer answer_;
    double exported_ = 1e9, by_hand_ = 1e9;
};

template <class Call> void print_ratios(const char *what, const std::vector<Pair<Call>> &pairs)
{
    double logs = 0, worst = 0;
    for (const Pair<Call> &p : pairs) {
        logs += std::log(p.ratio());
        worst = std::max(worst, p.ratio());
    }
    std::printf("%s: geometric mean %.2f, worst %.2f\n", what, std::exp(logs / static_cast<double>(pairs.size())), worst);
}
