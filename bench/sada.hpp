// The other side: sdsl's bp_support_sada with its rank and select, asked for what each kind asks for.
// sdsl speaks of places and counts a place's own bit; the sums with 1 below carry that over.
#pragma once

#include <sdsl/bp_support_sada.hpp>
#include <sdsl/rmq_support.hpp>

#include "questions.hpp"

using Support = sdsl::bp_support_sada<>;

// sdsl 2.1.1 has no public level ancestor. What later versions call level_anc is bwd_excess, which is private here;
// an explicit instantiation may name it.
template <typename Name, typename Name::type Member>
struct Opened {
    friend typename Name::type member(Name) { return Member; }
};

struct BackwardExcess {
    using type = Support::size_type (Support::*)(Support::size_type, Support::difference_type) const;
    friend type member(BackwardExcess);
};

template struct Opened<BackwardExcess, &Support::bwd_excess>;

constexpr uint32_t NONE = UINT32_MAX;

struct Sada {
    const Word &word;
    Support support;

    explicit Sada(const Word &of) : word(of), support(&of.bits) {}

    uint32_t node(size_t place) const { return place == support.size() ? NONE : static_cast<uint32_t>(place); }

    uint32_t ancestor(uint32_t a, uint32_t b) const
    {
        if (b == 0) {
            return a;
        }
        size_t before = (support.*member(BackwardExcess{}))(a, -static_cast<int64_t>(b) - 1);
        return before == support.size() ? NONE : static_cast<uint32_t>(before + 1);
    }

    // sdsl has no count of children on this support; its own suffix trees step from child to child.
    uint32_t children(uint32_t a) const
    {
        uint32_t count = 0;
        for (size_t child = a + 1; word.bits[child]; child = support.find_close(child) + 1) {
            count++;
        }
        return count;
    }

    uint32_t common(uint32_t a, uint32_t b) const
    {
        uint32_t first = std::min(a, b), second = std::max(a, b);
        bool holds = first == second || support.find_close(first) > second;
        return holds ? first : node(support.double_enclose(first, second));
    }

    uint32_t sibling(uint32_t a) const
    {
        size_t next = support.find_close(a) + 1;
        return next < word.m && word.bits[next] ? static_cast<uint32_t>(next) : NONE;
    }

    // The rightmost lowest boundary: bp_support_sada's rmq takes the last of equals, and knows no boundary 0.
    uint32_t lowest(uint32_t a, uint32_t b) const
    {
        return a == b ? a : a == 0 ? 0 : static_cast<uint32_t>(support.rmq(a - 1, b - 1) + 1);
    }

    uint32_t answer(uint32_t kind, uint32_t a, uint32_t b) const
    {
        switch (kind) {
        case 1: return static_cast<uint32_t>(support.excess(a) - 1);
        case 2: return static_cast<uint32_t>(support.rank(a) - 1);
        case 3: return static_cast<uint32_t>(support.select(a + 1));
        case 4: return static_cast<uint32_t>(support.find_close(a));
        case 5: return static_cast<uint32_t>(support.find_open(a));
        case 6: return node(support.enclose(a));
        case 7: return ancestor(a, b);
        case 8: return static_cast<uint32_t>((support.find_close(a) + 1 - a) / 2);
        case 9: return children(a);
        case 10: return word.bits[a + 1] ? a + 1 : NONE;
        case 11: return sibling(a);
        case 12: return common(a, b);
        case 13: return lowest(a, b);
        default: return a <= b && b < support.find_close(a);
        }
    }
};

// The leftmost lowest boundary, from sdsl's structure made for this alone, over all values of D.
struct SadaLowest {
    sdsl::int_vector<> depths;
    sdsl::rmq_succinct_sada<> rmq;

    explicit SadaLowest(const Word &word) : depths(word.m + 1, 0, 32), rmq(values(word))
    {
        // Only the structure is asked from here on.
        sdsl::util::clear(depths);
    }

    const sdsl::int_vector<> *values(const Word &word)
    {
        std::copy(word.depth.begin(), word.depth.end(), depths.begin());
        return &depths;
    }

    uint32_t answer(uint32_t a, uint32_t b) const { return static_cast<uint32_t>(rmq(a, b)); }
};

inline const char *operation(uint32_t kind)
{
    static const char *const NAMES[] = {"excess", "rank", "select", "find_close", "find_open", "enclose",
                                        "bwd_excess", "find_close", "find_close, child by child", "a bit",
                                        "find_close, a bit", "find_close, double_enclose", "rmq", "find_close"};
    return NAMES[kind - 1];
}
