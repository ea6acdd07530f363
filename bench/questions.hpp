// The questions that are measured: arguments drawn at random among those that the kind accepts.
// So every answer's code is 0 or 16, and both sides do their whole work.
#pragma once

#include <algorithm>
#include <vector>

#include "words.hpp"

struct Question {
    uint32_t kind, a, b;
};

inline Question draw(const Word &word, uint32_t kind, Rng &rng)
{
    uint32_t nodes = word.m / 2;
    uint32_t node = word.openings[rng.below(nodes)], other = word.openings[rng.below(nodes)];
    switch (kind) {
    case 3:
        return {kind, rng.below(nodes), 0};
    case 5:
        return {kind, word.closings[rng.below(nodes)], 0};
    case 7:
        return {kind, node, rng.below(static_cast<uint32_t>(word.depth[node]) + 1)};
    case 13: {
        uint32_t p = rng.below(word.m + 1), q = rng.below(word.m + 1);
        return {kind, std::min(p, q), std::max(p, q)};
    }
    case 12:
    case 14:
        return {kind, node, other};
    default:
        return {kind, node, 0};
    }
}

inline std::vector<Question> of_kind(const Word &word, uint32_t kind, size_t count)
{
    Rng rng{kind};
    std::vector<Question> questions;
    while (questions.size() < count) {
        questions.push_back(draw(word, kind, rng));
    }
    return questions;
}

// All fourteen kinds in turn.
inline std::vector<Question> mixed(const Word &word, size_t count)
{
    Rng rng{99};
    std::vector<Question> questions;
    while (questions.size() < count) {
        questions.push_back(draw(word, 1 + static_cast<uint32_t>(questions.size() % 14), rng));
    }
    return questions;
}
