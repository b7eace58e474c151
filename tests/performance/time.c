// Prints the time of one token in the check of tokens and in that of bytes: the proved library's and the second program's, on a generated stream of the
// version that has this number in the generator or, with an m before it, on one with the statistics of real shaders.
#include "../../include/santubeli.h"
#include "../../second/second.h"
#include "../generator/generate.h"
#include "mix.h"

#include <stdio.h>
#include <stdlib.h>
#include <time.h>

enum { TOKENS = 16000, CALLS = 200, ROUNDS = 40 };

static uint32_t tokens[GENERATE_ROOM];
static uint8_t bytes[4 * TOKENS];

static double seconds(void) {
    struct timespec t;
    clock_gettime(CLOCK_MONOTONIC, &t);
    return (double)t.tv_sec + 1e-9 * (double)t.tv_nsec;
}

static uint32_t proved(void) {
    return santubeli_check_tokens(tokens, TOKENS).number;
}

static uint32_t second(void) {
    return second_check(tokens, TOKENS).number;
}

static uint32_t proved_bytes(void) {
    return santubeli_check(bytes, sizeof bytes).number;
}

static uint32_t second_bytes(void) {
    return second_check_bytes(bytes, sizeof bytes).number;
}

// Nanoseconds for each token of one round of calls; a stream that is refused says nothing about the time of a whole check.
static double round_of(uint32_t (*check)(void)) {
    double start = seconds();
    for (int i = 0; i < CALLS; i++) {
        if (check() != 0) {
            fprintf(stderr, "time: the stream is refused\n");
            exit(1);
        }
    }
    return (seconds() - start) * 1e9 / CALLS / TOKENS;
}

// The best of many rounds of each, one after the other.
static void compare(const char *what, uint32_t (*one)(void), uint32_t (*other)(void)) {
    double best_one = 1e9, best_other = 1e9;
    for (int i = 0; i < ROUNDS; i++) {
        double p = round_of(one), s = round_of(other);
        best_one = p < best_one ? p : best_one;
        best_other = s < best_other ? s : best_other;
    }
    printf("   %s %5.2f / %5.2f = %.2f", what, best_one, best_other, best_one / best_other);
}

int main(int count, char **arguments) {
    if (count != 3) {
        fprintf(stderr, "usage: time VERSION|mVERSION NAME\n");
        return 1;
    }
    struct generate_source source = generate_seed(1);
    if (arguments[1][0] == 'm')
        mix_stream(&source, (unsigned)strtoul(arguments[1] + 1, NULL, 10), tokens, TOKENS);
    else
        generate_valid(&source, (unsigned)strtoul(arguments[1], NULL, 10), tokens, TOKENS);
    for (size_t k = 0; k < TOKENS; k++)
        for (unsigned b = 0; b < 4; b++)
            bytes[4 * k + b] = (uint8_t)(tokens[k] >> (8 * b));
    printf("%-28s", arguments[2]);
    compare("tokens", proved, second);
    compare("bytes", proved_bytes, second_bytes);
    printf("\n");
    return 0;
}
