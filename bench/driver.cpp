// Answers a recording some times over, from memory: driver RECORDING ROUNDS [REPLIES [SURFACES]]. What is counted is
// `answer_all`, of the proved library or of plain.cpp; with POOLED `answer_pooled`, through a pool of SURFACES (64).
#include <cstddef>
#include <cstdint>
#include <cstdio>
#include <cstdlib>

#ifdef POOLED
extern "C" size_t answer_pooled(uint32_t surfaces, const uint8_t *bytes, size_t n, uint8_t *replies, size_t room);
#else
extern "C" size_t answer_all(const uint8_t *bytes, size_t n, uint8_t *replies, size_t room);
#endif

// An empty function that the counter looks for: the last record of a round ends here.
extern "C" __attribute__((noinline)) void round_end() { __asm__ volatile(""); }

static uint8_t records[1 << 23], replies[1 << 24];

int main(int argc, char **argv) {
    if (argc < 3) return 2;
    FILE *f = fopen(argv[1], "rb");
    if (!f) return 2;
    size_t n = fread(records, 1, sizeof records, f), made = 0;
    fclose(f);
    for (long left = atol(argv[2]); left > 0; left--) {
#ifdef POOLED
        made = answer_pooled(argc > 4 ? atol(argv[4]) : 64, records, n, replies, sizeof replies);
#else
        made = answer_all(records, n, replies, sizeof replies);
#endif
        round_end();
    }
    if (argc > 3) {
        FILE *g = fopen(argv[3], "wb");
        if (!g || fwrite(replies, 1, made, g) != made || fclose(g)) return 2;
    }
    return 0;
}
