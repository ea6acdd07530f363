// Our side: the library's three calls over its C face, with the slices that they are lent.
// A call that is refused ends the run.
#pragma once

#include <cstdio>
#include <cstdlib>

#include "../include/lineage.h"
#include "questions.hpp"

struct Library {
    const Word &word;
    std::vector<int32_t> index;
    std::vector<uint32_t> answers;

    explicit Library(const Word &of) : word(of), index(lineage_index_numbers(of.m)) { build(); }

    static void accept(const char *call, lineage_outcome outcome, size_t value)
    {
        if (outcome.code != 0 || outcome.value != value) {
            std::fprintf(stderr, "%s gave code %u beside %zu\n", call, outcome.code, outcome.value);
            std::exit(1);
        }
    }

    void judge() const { accept("judge", lineage_judge(word.bytes.data(), word.bytes.size(), word.m), 0); }

    void build()
    {
        accept("build", lineage_build(word.bytes.data(), word.bytes.size(), word.m, index.data(), index.size()),
               word.m / 2);
    }

    void batch(const std::vector<Question> &questions, size_t count)
    {
        answers.resize(3 * questions.size());
        accept("batch",
               lineage_batch(word.bytes.data(), word.bytes.size(), word.m, index.data(), index.size(),
                             &questions[0].kind, 3 * count, answers.data(), answers.size()),
               count);
    }

    uint32_t answer(size_t i) const { return answers[3 * i] == 0 ? answers[3 * i + 1] : NONE_HERE; }

    static constexpr uint32_t NONE_HERE = UINT32_MAX;
};
