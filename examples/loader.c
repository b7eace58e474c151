/*
 * A loader to start from: reads shader files, checks each, tells what a driver is known to read otherwise, and hands only
 * what was accepted to the device.
 *
 *   cc -O2 -Iinclude examples/loader.c target/staticlib/libsantubeli.a -o loader
 *   ./loader FILE...
 */
#include "santubeli.h"

#include <stdio.h>

/* One byte more than the longest shader has: a longer file is LENGTH, not a shader cut short. */
static uint8_t bytes[4 * SANTUBELI_MOST_TOKENS + 1];

static uint32_t tokens[SANTUBELI_MOST_TOKENS];

static void tell_refusal(const char *name, struct santubeli_verdict verdict)
{
    fprintf(stderr, "%s: refused, number %u at token %zu", name, (unsigned)verdict.number, verdict.position);
    if (verdict.number >= SANTUBELI_RESERVED && verdict.number <= SANTUBELI_RELATIVE)
        fprintf(stderr, ", bit %zu", verdict.detail);
    fprintf(stderr, "\n");
}

/* The notes on an accepted shader. They are for the log: a yes stays a yes. */
static void tell_notes(const char *name, size_t count)
{
    for (size_t k = 0; k < count; k++)
        tokens[k] = bytes[4 * k] | (uint32_t)bytes[4 * k + 1] << 8 | (uint32_t)bytes[4 * k + 2] << 16 | (uint32_t)bytes[4 * k + 3] << 24;
    for (size_t from = 1; from < count;) {
        const struct santubeli_noted noted = santubeli_note(tokens[0], tokens, count, from);
        if (noted.number != SANTUBELI_YES || noted.notes == 0)
            break;
        fprintf(stderr, "%s: note %u at token %zu\n", name, (unsigned)noted.notes, noted.at);
        from = noted.next;
    }
}

/* Where the device takes the tokens; here they are only counted. */
static void hand_to_device(const uint8_t *shader, size_t length)
{
    (void)shader;
    printf("%zu bytes handed on\n", length);
}

static int load(const char *name)
{
    FILE *file = fopen(name, "rb");
    if (!file) {
        fprintf(stderr, "%s: cannot be opened\n", name);
        return 2;
    }
    const size_t length = fread(bytes, 1, sizeof bytes, file);
    const int broken = ferror(file);
    fclose(file);
    if (broken) {
        fprintf(stderr, "%s: cannot be read\n", name);
        return 2;
    }
    const struct santubeli_verdict verdict = santubeli_check(bytes, length);
    if (verdict.number != SANTUBELI_YES) {
        tell_refusal(name, verdict);
        return 1;
    }
    tell_notes(name, verdict.tokens);
    printf("%s: %zu tokens, %zu instructions, ", name, verdict.tokens, verdict.instructions);
    hand_to_device(bytes, length);
    return 0;
}

/* Exit status: 0 all handed on, 1 a file was refused, 2 a file could not be read, or none was named. */
int main(int argc, char **argv)
{
    if (argc < 2) {
        fprintf(stderr, "usage: loader FILE...\n");
        return 2;
    }
    int status = 0;
    for (int k = 1; k < argc; k++) {
        const int one = load(argv[k]);
        if (one > status)
            status = one;
    }
    return status;
}
