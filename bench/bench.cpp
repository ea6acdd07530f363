// Measures the library beside sdsl's bp_support_sada on the same words and questions, and writes the figures as JSON.
// Before anything is timed, both sides must give the same answer to every question that will be asked.
#include <cstring>
#include <functional>

#include "library.hpp"
#include "sada.hpp"
#include "timing.hpp"

namespace {

struct Effort {
    size_t questions, many;     // of one kind; in the largest batch
    double least;               // nanoseconds that a timing lasts at least
    std::vector<uint32_t> sizes, growth;
};

const Effort WHOLE{40000, 1000000, 2e7, {65536, 2097152}, {4096, 16384, 65536, 262144, 1048576, 2097152}};
const Effort QUICK{2000, 20000, 1e6, {4096, 65536}, {4096, 16384, 65536}};

// What is summed here can't be left out by the compiler.
volatile uint64_t sink;

class Rows {
    bool first = true;

public:
    explicit Rows(const char *name) { std::printf(" \"%s\": [", name); }

    void next()
    {
        std::printf(first ? "\n  " : ",\n  ");
        first = false;
    }

    void end(const char *after) { std::printf("\n ]%s\n", after); }
};

[[noreturn]] void differ(const Word &word, const Question &q, uint32_t ours, uint32_t theirs)
{
    std::fprintf(stderr, "%s, m = %u: kind %u of %u, %u: library %d, sdsl %d\n", word.shape.c_str(), word.m, q.kind,
                 q.a, q.b, static_cast<int>(ours), static_cast<int>(theirs));
    std::exit(1);
}

void same_answers(const Word &word, Library &library, const Sada &sada, const std::vector<Question> &questions)
{
    library.batch(questions, questions.size());
    for (size_t i = 0; i < questions.size(); i++) {
        const Question &q = questions[i];
        uint32_t ours = library.answer(i), theirs = sada.answer(q.kind, q.a, q.b);
        // sdsl's rmq takes the rightmost of the lowest boundaries, the library the leftmost.
        bool same = q.kind == 13 ? ours <= theirs && word.depth[ours] == word.depth[theirs] : ours == theirs;
        if (!same) {
            differ(word, q, ours, theirs);
        }
    }
}

void same_lowest(const Word &word, Library &library, const SadaLowest &sada, const std::vector<Question> &questions)
{
    library.batch(questions, questions.size());
    for (size_t i = 0; i < questions.size(); i++) {
        uint32_t theirs = sada.answer(questions[i].a, questions[i].b);
        if (library.answer(i) != theirs) {
            differ(word, questions[i], library.answer(i), theirs);
        }
    }
}

// Time for each question, without the checks that the batch begins with.
double per_question(Library &library, const std::vector<Question> &questions, double least)
{
    double checks = one_run([&] { library.batch(questions, 0); }, least / 4);
    double whole = one_run([&] { library.batch(questions, questions.size()); }, least);
    return (whole - checks) / static_cast<double>(questions.size());
}

template <typename Ask>
double per_ask(const std::vector<Question> &questions, double least, const Ask &ask)
{
    auto all = [&] {
        uint64_t sum = 0;
        for (const Question &q : questions) {
            sum += ask(q);
        }
        sink = sum;
    };
    return one_run(all, least) / static_cast<double>(questions.size());
}

// The kind is a constant of the loop, as it is for one who calls sdsl.
template <uint32_t Kind>
double sada_loop(const Sada &sada, const std::vector<Question> &questions, double least)
{
    return per_ask(questions, least, [&](const Question &q) { return sada.answer(Kind, q.a, q.b); });
}

template <size_t... I>
double sada_time(uint32_t kind, const Sada &sada, const std::vector<Question> &questions, double least,
                 std::index_sequence<I...>)
{
    using Loop = double (*)(const Sada &, const std::vector<Question> &, double);
    static const Loop LOOPS[] = {sada_loop<I + 1>...};
    return LOOPS[kind - 1](sada, questions, least);
}

void print_kind(const Word &word, uint32_t kind, const char *operation, const Library &library, const Measured &time)
{
    double reads = 0;
    uint32_t most = 0;
    for (size_t i = 2; i < library.answers.size(); i += 3) {
        reads += library.answers[i];
        most = std::max(most, library.answers[i]);
    }
    reads /= static_cast<double>(library.answers.size()) / 3;
    std::printf("{\"shape\": \"%s\", \"m\": %u, \"kind\": %u, \"operation\": \"%s\", \"ours_ns\": %.2f, "
                "\"sdsl_ns\": %.2f, \"ratio\": %.3f, \"mean_reads\": %.2f, \"most_reads\": %u}",
                word.shape.c_str(), word.m, kind, operation, time.ours, time.theirs, time.ratio, reads, most);
}

void one_kind(Rows &rows, const Word &word, Library &library, const Sada &sada, uint32_t kind, const Effort &effort)
{
    auto questions = of_kind(word, kind, effort.questions);
    same_answers(word, library, sada, questions);
    auto ours = [&] { return per_question(library, questions, effort.least); };
    auto theirs = [&] {
        return sada_time(kind, sada, questions, effort.least, std::make_index_sequence<14>());
    };
    Measured time = five_rounds(ours, theirs);
    rows.next();
    print_kind(word, kind, operation(kind), library, time);
}

void lowest_boundary(Rows &rows, const Word &word, Library &library, const Effort &effort)
{
    SadaLowest sada(word);
    auto questions = of_kind(word, 13, effort.questions);
    same_lowest(word, library, sada, questions);
    auto ours = [&] { return per_question(library, questions, effort.least); };
    auto theirs = [&] {
        return per_ask(questions, effort.least, [&](const Question &q) { return sada.answer(q.a, q.b); });
    };
    Measured time = five_rounds(ours, theirs);
    rows.next();
    print_kind(word, 13, "rmq_succinct_sada", library, time);
}

void kinds(Rows &rows, const Word &word, const Effort &effort)
{
    Library library(word);
    Sada sada(word);
    for (uint32_t kind = 1; kind <= 14; kind++) {
        one_kind(rows, word, library, sada, kind, effort);
    }
    lowest_boundary(rows, word, library, effort);
}

bool balanced_bit_by_bit(const Word &word)
{
    int64_t depth = 0;
    for (uint32_t place = 0; place < word.m; place++) {
        depth += word.opens(place) ? 1 : -1;
        if (depth < 0) {
            return false;
        }
    }
    return depth == 0;
}

void print_call(Rows &rows, const Word &word, const char *call, const char *other, const Measured &time)
{
    rows.next();
    std::printf("{\"shape\": \"%s\", \"m\": %u, \"call\": \"%s\", \"other\": \"%s\", \"ours_us\": %.2f, "
                "\"other_us\": %.2f, \"ratio\": %.3f}",
                word.shape.c_str(), word.m, call, other, time.ours / 1000, time.theirs / 1000, time.ratio);
}

// Whole calls: judge, build, and what a batch checks before its first question.
void calls(Rows &rows, const Word &word, const Effort &effort)
{
    Library library(word);
    std::vector<Question> none(1);
    auto plain = [&] { return one_run([&] { sink = balanced_bit_by_bit(word); }, effort.least); };
    auto judge = [&] { return one_run([&] { library.judge(); }, effort.least); };
    auto build = [&] { return one_run([&] { library.build(); }, effort.least); };
    auto checks = [&] { return one_run([&] { library.batch(none, 0); }, effort.least); };
    auto construct = [&] { return one_run([&] { sink = Support(&word.bits).size(); }, effort.least); };
    print_call(rows, word, "judge", "a loop over the bits", five_rounds(judge, plain));
    print_call(rows, word, "build", "bp_support_sada's constructor", five_rounds(build, construct));
    print_call(rows, word, "batch of none", "build", five_rounds(checks, build));
}

// Mixed kinds. Here the batch's checks are counted in.
void batches(Rows &rows, const Word &word, const Effort &effort)
{
    Library library(word);
    Sada sada(word);
    for (size_t count : {size_t{1}, size_t{1024}, effort.many}) {
        auto questions = mixed(word, count);
        same_answers(word, library, sada, questions);
        auto ours = [&] {
            return one_run([&] { library.batch(questions, count); }, effort.least) / static_cast<double>(count);
        };
        auto theirs = [&] {
            return per_ask(questions, effort.least, [&](const Question &q) { return sada.answer(q.kind, q.a, q.b); });
        };
        Measured time = five_rounds(ours, theirs);
        rows.next();
        std::printf("{\"shape\": \"%s\", \"m\": %u, \"questions\": %zu, \"ours_ns\": %.2f, \"sdsl_ns\": %.2f, "
                    "\"ratio\": %.3f}",
                    word.shape.c_str(), word.m, count, time.ours, time.theirs, time.ratio);
    }
}

void space(Rows &rows, uint32_t m)
{
    Word word = make_word("random", m);
    Sada sada(word);
    rows.next();
    std::printf("{\"m\": %u, \"word_bytes\": %zu, \"index_bytes\": %zu, \"sdsl_bytes\": %zu}", m, word.bytes.size(),
                4 * lineage_index_numbers(m), static_cast<size_t>(sdsl::size_in_bytes(sada.support)));
}

void growth(Rows &rows, uint32_t m, const Effort &effort)
{
    Word word = make_word("random", m);
    Library library(word);
    Sada sada(word);
    for (uint32_t kind : {1u, 3u, 4u, 6u, 12u}) {
        one_kind(rows, word, library, sada, kind, effort);
    }
}

using Part = void (*)(Rows &, const Word &, const Effort &);

void each_word(const char *name, Part part, const Effort &effort)
{
    Rows rows(name);
    for (uint32_t m : effort.sizes) {
        for (const char *shape : {"random", "chain", "star"}) {
            std::fprintf(stderr, "%s: %s, m = %u\n", name, shape, m);
            part(rows, make_word(shape, m), effort);
            std::fflush(stdout);
        }
    }
    rows.end(",");
}

void each_size(const char *name, const Effort &effort, const std::function<void(Rows &, uint32_t)> &part,
               const char *after)
{
    Rows rows(name);
    for (uint32_t m : effort.growth) {
        std::fprintf(stderr, "%s: m = %u\n", name, m);
        part(rows, m);
    }
    rows.end(after);
}

// What bench/run found out about the machine.
void print_machine()
{
    std::printf(" \"machine\": {");
    const char *before = "";
    for (const char *name : {"CPU", "SYSTEM", "COMPILER", "FLAGS", "SDSL", "LIBRARY", "DATE"}) {
        const char *value = std::getenv((std::string("BENCH_") + name).c_str());
        std::printf("%s\"%s\": \"%s\"", before, name, value ? value : "unknown");
        before = ", ";
    }
    std::printf("},\n");
}

}  // namespace

int main(int count, char **words)
{
    bool quick = count > 1 && std::strcmp(words[1], "--quick") == 0;
    const Effort &effort = quick ? QUICK : WHOLE;
    std::printf("{\n");
    print_machine();
    std::printf(" \"questions\": %zu,\n", effort.questions);
    each_word("kinds", kinds, effort);
    each_word("calls", calls, effort);
    each_word("batches", batches, effort);
    each_size("growth", effort, [&](Rows &rows, uint32_t m) { growth(rows, m, effort); }, ",");
    each_size("space", effort, [](Rows &rows, uint32_t m) { space(rows, m); }, "");
    std::printf("}\n");
}
