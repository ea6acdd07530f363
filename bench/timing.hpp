// Timing: each figure is the median of five rounds, and both sides take turns within a round.
// A ratio is the median of the five rounds' ratios. Processor time is taken, so that other work on the machine counts less.
#pragma once

#include <algorithm>
#include <array>
#include <ctime>

constexpr int ROUNDS = 5;

struct Measured {
    double ours, theirs, ratio;  // nanoseconds, nanoseconds, ours over theirs
};

inline double median(std::array<double, ROUNDS> list)
{
    std::sort(list.begin(), list.end());
    return list[ROUNDS / 2];
}

inline double nanoseconds_so_far()
{
    timespec time;
    clock_gettime(CLOCK_PROCESS_CPUTIME_ID, &time);
    return 1e9 * static_cast<double>(time.tv_sec) + static_cast<double>(time.tv_nsec);
}

// Nanoseconds of one run; a short one is run again until `least` nanoseconds have passed.
template <typename Work>
double one_run(const Work &work, double least)
{
    double start = nanoseconds_so_far();
    for (int runs = 1;; runs++) {
        work();
        double passed = nanoseconds_so_far() - start;
        if (passed >= least) {
            return passed / runs;
        }
    }
}

// `ours` and `theirs` each give nanoseconds.
template <typename Ours, typename Theirs>
Measured five_rounds(const Ours &ours, const Theirs &theirs)
{
    std::array<double, ROUNDS> our_times, their_times, ratios;
    for (int round = 0; round < ROUNDS; round++) {
        our_times[round] = ours();
        their_times[round] = theirs();
        ratios[round] = our_times[round] / their_times[round];
    }
    return {median(our_times), median(their_times), median(ratios)};
}
