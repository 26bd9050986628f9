// PHOLD of phold.rs for the peers in C++: its words, the processes' states, and what is printed at the end.
#include <cstdint>
#include <cstdio>
#include <cstdlib>
#include <vector>

/// The first word of PCG's XSH RR 64/32 generator for this key, with stream `16 * lp + j`.
inline uint32_t word(uint64_t key, uint32_t lp, uint64_t j) {
    const uint64_t multiplier = 6364136223846793005u;
    const uint64_t increment = (16 * uint64_t{lp} + j) << 1 | 1;
    const uint64_t state = (key + increment) * multiplier + increment;
    const uint32_t mixed = static_cast<uint32_t>(((state >> 18) ^ state) >> 27);
    const uint32_t turn = state >> 59;
    return mixed >> turn | mixed << (-turn & 31);
}

inline uint64_t next_key(uint64_t key, uint32_t lp, uint64_t j) {
    return uint64_t{word(key, lp, j)} << 32 | word(key, lp, j + 1);
}

/// A message's content: its number, and how often it was handled.
struct Message {
    uint64_t number;
    uint64_t handled;
};

/// The destination of a message, and the number of ticks until it arrives.
struct Hop {
    uint32_t to;
    uint32_t delay;
};

struct Phold {
    uint32_t lps;
    uint64_t end;
    uint32_t population;
    uint32_t spread;
    uint64_t seed;
    std::vector<uint64_t> keys;
    std::vector<uint64_t> counts;
    uint64_t events = 0;
    uint64_t sum = 0;

    /// From the words LPS END POPULATION SPREAD SEED of a call.
    Phold(int argc, char** argv) {
        if (argc != 6) {
            std::fprintf(stderr, "usage: %s LPS END POPULATION SPREAD SEED\n", argv[0]);
            std::exit(2);
        }
        auto number = [argv](int place) { return std::strtoull(argv[place], nullptr, 10); };
        lps = number(1);
        end = number(2);
        population = number(3);
        spread = number(4);
        seed = number(5);
        for (uint32_t lp = 0; lp < lps; lp++)
            keys.push_back(next_key(seed, lp, population));
        counts.resize(lps);
    }

    uint32_t first_delay(uint32_t lp, uint32_t k) const {
        return 1 + word(seed, lp, k) % spread;
    }

    Hop handle(uint64_t time, uint32_t lp, Message& message) {
        const uint64_t key = keys[lp];
        keys[lp] = next_key(key, lp, 2);
        counts[lp] += 1;
        message.handled += 1;
        events += 1;
        sum += time * 31 + lp;
        return {word(key, lp, 0) % lps, 1 + word(key, lp, 1) % spread};
    }

    void print() const {
        uint64_t states = 0;
        for (uint32_t lp = 0; lp < lps; lp++)
            states += (lp + 1) * (keys[lp] ^ counts[lp]);
        std::printf("events %llu sum %llu states %llu\n", static_cast<unsigned long long>(events),
                    static_cast<unsigned long long>(sum), static_cast<unsigned long long>(states));
    }
};
