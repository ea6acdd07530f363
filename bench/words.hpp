// The words that are measured: three shapes of forest, each as lent bytes and as sdsl's bit vector.
// The same seed gives the same words on every machine.
#pragma once

#include <cstdint>
#include <string>
#include <vector>

#include <sdsl/bit_vectors.hpp>

// SplitMix64.
struct Rng {
    uint64_t state;

    uint64_t next()
    {
        uint64_t x = state += 0x9E3779B97F4A7C15u;
        x = (x ^ (x >> 30)) * 0xBF58476D1CE4E5B9u;
        x = (x ^ (x >> 27)) * 0x94D049BB133111EBu;
        return x ^ (x >> 31);
    }

    uint32_t below(uint32_t limit) { return static_cast<uint32_t>(next() % limit); }
};

struct Word {
    std::string shape;
    uint32_t m;
    std::vector<uint8_t> bytes;
    sdsl::bit_vector bits;
    std::vector<int32_t> depth;  // D(p) for p from 0 to m
    std::vector<uint32_t> openings, closings;

    bool opens(uint32_t place) const { return bytes[place / 8] >> place % 8 & 1; }
};

// Every balanced row of this length is equally likely.
inline std::vector<bool> random_row(uint32_t m, Rng &rng)
{
    std::vector<bool> row;
    uint64_t height = 0;
    for (uint64_t left = m; left > 0; left--) {
        // The share of ways home that begin with an opening, by the ballot numbers.
        bool opens = rng.next() % (2 * left * (height + 1)) < (height + 2) * (left - height);
        row.push_back(opens);
        height = opens ? height + 1 : height - 1;
    }
    return row;
}

// Each node is the one child of the node before.
inline std::vector<bool> chain_row(uint32_t m)
{
    std::vector<bool> row(m / 2, true);
    row.resize(m, false);
    return row;
}

// One root with all other nodes as its children.
inline std::vector<bool> star_row(uint32_t m)
{
    std::vector<bool> row(m, false);
    row[0] = true;
    for (uint32_t i = 1; i + 1 < m; i += 2) {
        row[i] = true;
    }
    return row;
}

inline Word make_word(const std::string &shape, uint32_t m)
{
    Rng rng{m};
    std::vector<bool> row = shape == "random" ? random_row(m, rng) : shape == "chain" ? chain_row(m) : star_row(m);
    Word word{shape, m, std::vector<uint8_t>((m + 7) / 8), sdsl::bit_vector(m, 0), {0}, {}, {}};
    for (uint32_t i = 0; i < m; i++) {
        word.bytes[i / 8] |= static_cast<uint8_t>(row[i] << i % 8);
        word.bits[i] = row[i];
        word.depth.push_back(word.depth.back() + (row[i] ? 1 : -1));
        (row[i] ? word.openings : word.closings).push_back(i);
    }
    return word;
}
