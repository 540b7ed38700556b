// lanes TIMES FILE: the gates of an ASCII circuit over four uint64_t, stepped so often with all inputs 0.
// It reads what bench/lanes writes: gates in an order in which each comes after those that it reads.
#include <stdint.h>
#include <stdio.h>
#include <stdlib.h>
#include <time.h>

typedef struct { uint64_t word[4]; } lanes;
typedef struct { uint32_t left, first, second; } gate;

static void step(const gate *gates, size_t count, lanes *values) {
    for (size_t i = 0; i < count; i++) {
        gate g = gates[i];
        uint64_t first = -(uint64_t)(g.first & 1), second = -(uint64_t)(g.second & 1);
        lanes x = values[g.first >> 1], y = values[g.second >> 1], z;
        for (int k = 0; k < 4; k++) z.word[k] = (x.word[k] ^ first) & (y.word[k] ^ second);
        values[g.left >> 1] = z;
    }
}

static void move_on(const uint32_t *latches, size_t count, const lanes *values, lanes *state) {
    for (size_t i = 0; i < count; i++) {
        uint32_t next = latches[2 * i + 1];
        uint64_t negated = -(uint64_t)(next & 1);
        for (int k = 0; k < 4; k++) state[i].word[k] = values[next >> 1].word[k] ^ negated;
    }
}

int main(int argc, char **argv) {
    if (argc < 3) return 2;
    long times = atol(argv[1]);
    FILE *in = fopen(argv[2], "r");
    unsigned variables, inputs, latches, outputs, count, bad;
    if (!in || fscanf(in, "aag %u %u %u %u %u %u", &variables, &inputs, &latches, &outputs, &count, &bad) != 6) return 2;
    uint32_t skipped, *pairs = calloc(2 * latches + 1, sizeof *pairs);
    gate *gates = calloc(count + 1, sizeof *gates);
    lanes *values = aligned_alloc(32, (variables + 1) * sizeof *values), *state = aligned_alloc(32, (latches + 1) * sizeof *state);
    for (unsigned i = 0; i < inputs; i++) if (fscanf(in, "%u", &skipped) != 1) return 2;
    for (unsigned i = 0; i < latches; i++) if (fscanf(in, "%u %u%*[^\n]", &pairs[2 * i], &pairs[2 * i + 1]) != 2) return 2;
    for (unsigned i = 0; i < outputs + bad; i++) if (fscanf(in, "%u", &skipped) != 1) return 2;
    for (unsigned i = 0; i < count; i++) if (fscanf(in, "%u %u %u", &gates[i].left, &gates[i].first, &gates[i].second) != 3) return 2;
    for (unsigned i = 0; i <= variables; i++) values[i] = (lanes){{0, 0, 0, 0}};
    for (unsigned i = 0; i <= latches; i++) state[i] = (lanes){{0, 0, 0, 0}};
    struct timespec begin, end;
    clock_gettime(CLOCK_MONOTONIC, &begin);
    for (long t = 0; t < times; t++) {
        for (unsigned i = 0; i < latches; i++) values[pairs[2 * i] >> 1] = state[i];
        step(gates, count, values);
        move_on(pairs, latches, values, state);
    }
    clock_gettime(CLOCK_MONOTONIC, &end);
    uint64_t ones = 0;
    for (unsigned i = 0; i < latches; i++) ones += state[i].word[0] & 1;
    printf("plain %.0f ns, %llu ones\n", (end.tv_sec - begin.tv_sec) * 1e9 + (end.tv_nsec - begin.tv_nsec), (unsigned long long)ones);
}
