/*
 * What is measured: each function below is one call of the proved library or of the second program on one stream.
 *
 *   measure SEED TOKENS VERSION     a generated lawful stream
 *   measure SEED TOKENS mVERSION    a stream with the statistics of real shaders
 *   measure SEED TOKENS deep        loops in one another and BREAKs
 *   measure FILE...                 shader files
 *
 * Run under an instruction counter that collects inside the functions measured_*.
 */
#include "../../include/santubeli.h"
#include "../../second/second.h"
#include "../generator/generate.h"
#include "mix.h"

#include <inttypes.h>
#include <stdio.h>
#include <stdlib.h>
#include <string.h>

static uint32_t tokens[GENERATE_ROOM];
static uint8_t bytes[4 * GENERATE_ROOM];
static size_t length;

__attribute__((noinline)) struct santubeli_verdict measured_proved_tokens(void)
{
    return santubeli_check_tokens(tokens, length);
}

__attribute__((noinline)) struct santubeli_verdict measured_proved_bytes(void)
{
    return santubeli_check(bytes, 4 * length);
}

__attribute__((noinline)) struct second_verdict measured_second_tokens(void)
{
    return second_check(tokens, length);
}

__attribute__((noinline)) struct second_verdict measured_second_bytes(void)
{
    return second_check_bytes(bytes, 4 * length);
}

__attribute__((noinline)) size_t measured_proved_reads(void)
{
    size_t at = 1, count = 0;
    while (at < length) {
        const struct santubeli_reading one = santubeli_read(tokens[0], tokens, length, at);
        if (one.number != 0)
            break;
        at = one.next;
        count++;
    }
    return count;
}

__attribute__((noinline)) size_t measured_second_reads(void)
{
    size_t at = 1, count = 0;
    while (at < length) {
        const struct second_read one = second_read(tokens[0], tokens, length, at);
        if (one.number != 0)
            break;
        at = one.next;
        count++;
    }
    return count;
}

/* An instruction near a place is replaced by itself. */
static size_t edit_from, edit_to;
static uint32_t edit_run[GENERATE_INSTRUCTION];
static uint32_t buffer[GENERATE_ROOM];

__attribute__((noinline)) struct santubeli_edited measured_edit_front(void)
{
    return santubeli_edit(buffer, length, length, edit_from, edit_to, edit_run, edit_to - edit_from);
}

__attribute__((noinline)) struct santubeli_edited measured_edit_middle(void)
{
    return santubeli_edit(buffer, length, length, edit_from, edit_to, edit_run, edit_to - edit_from);
}

__attribute__((noinline)) struct santubeli_edited measured_edit_end(void)
{
    return santubeli_edit(buffer, length, length, edit_from, edit_to, edit_run, edit_to - edit_from);
}

__attribute__((noinline)) size_t measured_proved_writes(const struct santubeli_record *records, size_t count)
{
    size_t at = 1;
    for (size_t k = 0; k < count; k++) {
        const struct santubeli_written one = santubeli_write(tokens[0], records[k], NULL, 0, buffer, length, at);
        if (one.number == 0)
            at = one.next;
    }
    return at;
}

__attribute__((noinline)) size_t measured_second_writes(const struct santubeli_record *records, size_t count)
{
    size_t at = 1;
    for (size_t k = 0; k < count; k++) {
        struct second_record same;
        memcpy(&same, &records[k], sizeof same);
        const struct second_written one = second_write(tokens[0], &same, NULL, 0, buffer, length, at);
        if (one.number == 0)
            at = one.next;
    }
    return at;
}

/* The first short instruction from a place on. */
static void choose(size_t from)
{
    for (size_t at = 1; at < length;) {
        const struct second_read one = second_read(tokens[0], tokens, length, at);
        if (one.number != 0)
            break;
        if (at >= from && one.next - at <= GENERATE_INSTRUCTION) {
            edit_from = at;
            edit_to = one.next;
            memcpy(edit_run, tokens + at, (edit_to - edit_from) * sizeof *tokens);
            memcpy(buffer, tokens, length * sizeof *tokens);
            return;
        }
        at = one.next;
    }
}

static void write_and_edit(void)
{
    static struct santubeli_record records[GENERATE_MAX];
    size_t count = 0;
    for (size_t at = 1; at < length;) {
        const struct santubeli_reading one = santubeli_read(tokens[0], tokens, length, at);
        if (one.number != 0)
            break;
        if (one.record.opcode != 0xFFFE)
            records[count++] = one.record;
        at = one.next;
    }
    if (measured_proved_writes(records, count) != measured_second_writes(records, count))
        printf("the two differ\n");
    choose(100);
    const struct santubeli_edited front = measured_edit_front();
    choose(length / 2);
    const struct santubeli_edited middle = measured_edit_middle();
    choose(length - 100);
    const struct santubeli_edited end = measured_edit_end();
    if (front.joined + middle.joined + end.joined != 3)
        printf("an edit that puts back what was there is JOINED\n");
}

/* All notes of the stream; how many there are. */
__attribute__((noinline)) size_t measured_proved_notes(void)
{
    size_t count = 0;
    for (size_t from = 1; from < length; count++) {
        const struct santubeli_noted one = santubeli_note(tokens[0], tokens, length, from);
        if (one.number != 0 || one.notes == 0)
            break;
        from = one.next;
    }
    return count;
}

__attribute__((noinline)) size_t measured_second_notes(void)
{
    size_t count = 0;
    for (size_t from = 1; from < length; count++) {
        const struct second_noted one = second_note(tokens[0], tokens, length, from);
        if (one.number != 0 || one.notes == 0)
            break;
        from = (size_t)one.next;
    }
    return count;
}

static size_t run(void)
{
    for (size_t k = 0; k < length; k++)
        for (unsigned b = 0; b < 4; b++)
            bytes[4 * k + b] = (uint8_t)(tokens[k] >> (8 * b));
    const struct santubeli_verdict a = measured_proved_tokens(), b = measured_proved_bytes();
    const struct second_verdict c = measured_second_tokens(), d = measured_second_bytes();
    const size_t e = measured_proved_reads(), f = measured_second_reads();
    const size_t g = measured_proved_notes(), h = measured_second_notes();
    if (a.number != c.number || b.number != d.number || e != f || g != h)
        printf("the two differ\n");
    return length;
}

int main(int argc, char **argv)
{
    size_t total = 0;
    if (argc == 4 && argv[1][0] >= '0' && argv[1][0] <= '9') {
        struct generate_source source = generate_seed(strtoull(argv[1], NULL, 0));
        length = strtoul(argv[2], NULL, 0);
        if (argv[3][0] == 'd')
            deep_stream(tokens, length);
        else if (argv[3][0] == 'm')
            mix_stream(&source, (unsigned)strtoul(argv[3] + 1, NULL, 0), tokens, length);
        else
            generate_valid(&source, (unsigned)strtoul(argv[3], NULL, 0), tokens, length);
        if (second_check(tokens, length).number != 0)
            printf("the stream is not lawful\n");
        total = run();
        write_and_edit();
    } else {
        for (int k = 1; k < argc; k++) {
            FILE *file = fopen(argv[k], "rb");
            if (!file)
                return 2;
            length = fread(bytes, 4, GENERATE_MAX, file);
            fclose(file);
            for (size_t t = 0; t < length; t++)
                tokens[t] = bytes[4 * t] | (uint32_t)bytes[4 * t + 1] << 8 | (uint32_t)bytes[4 * t + 2] << 16
                    | (uint32_t)bytes[4 * t + 3] << 24;
            total += run();
        }
    }
    printf("tokens %zu\n", total);
    return 0;
}
