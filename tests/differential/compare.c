/*
 * The proved library beside the second program, on the same data: every answer with its detail, every record, every note and
 * every buffer is compared, and every record that was read is written back and compared with the stream. Prints each
 * difference (the first few), how many operand tokens were given with flipped bits and, last, 'N passed, M failed'.
 *
 *   compare [SEED [ROUNDS]]
 */
#include "../../include/santubeli.h"
#include "../../second/second.h"
#include "../generator/generate.h"

#include <inttypes.h>
#include <stdbool.h>
#include <stdio.h>
#include <stdlib.h>
#include <string.h>

enum { SHOWN = 20 };

static uint64_t passed, failed;

static bool count(bool same)
{
    if (same)
        passed++;
    else
        failed++;
    return !same && failed <= SHOWN;
}

static void show(const char *what, const uint32_t *tokens, size_t length)
{
    printf("%s:", what);
    for (size_t k = 0; k < length && k < 40; k++)
        printf(" %08" PRIX32, tokens[k]);
    printf(length > 40 ? " ...\n" : "\n");
}

/* Number, position and detail of any two answers. */
#define SAME_REFUSAL(expected, given) \
    ((expected).number == (given).number && (expected).position == (given).position && (expected).detail == (given).detail)
#define SHOW_REFUSALS(expected, given)                                                                                     \
    printf("  second %" PRIu32 "@%" PRIu32 " detail %" PRIu32 ", proved %" PRIu32 "@%zu detail %zu\n", (expected).number,   \
           (expected).position, (expected).detail, (given).number, (given).position, (given).detail)

/* ---- Check ------------------------------------------------------------ */

static bool same_verdict(struct second_verdict expected, struct santubeli_verdict given)
{
    return SAME_REFUSAL(expected, given) && expected.tokens == given.tokens && expected.instructions == given.instructions;
}

static void to_bytes(const uint32_t *tokens, size_t length, uint8_t *bytes)
{
    for (size_t k = 0; k < length; k++)
        for (unsigned b = 0; b < 4; b++)
            bytes[4 * k + b] = (uint8_t)(tokens[k] >> (8 * b));
}

static void check_stream(void *context, const uint32_t *tokens, size_t length)
{
    static uint8_t bytes[4 * GENERATE_ROOM];
    const struct second_verdict expected = second_check(tokens, length);
    (void)context;

    const struct santubeli_verdict given = santubeli_check_tokens(tokens, length);
    if (count(same_verdict(expected, given))) {
        show("check of tokens", tokens, length);
        SHOW_REFUSALS(expected, given);
    }
    to_bytes(tokens, length, bytes);
    const struct santubeli_verdict of_bytes = santubeli_check(bytes, 4 * length);
    if (count(same_verdict(expected, of_bytes))) {
        show("check of bytes", tokens, length);
        SHOW_REFUSALS(expected, of_bytes);
    }
}

/* Bytes that are no multiple of four, and lengths around the limits. */
static void check_lengths(struct generate_source *source)
{
    static uint8_t bytes[4 * (GENERATE_MAX + 2)];
    static uint32_t tokens[GENERATE_ROOM];
    generate_valid(source, 0, tokens, GENERATE_MAX);
    to_bytes(tokens, GENERATE_MAX, bytes);
    for (size_t length = 0; length < 64; length++) {
        const struct second_verdict expected = second_check_bytes(bytes, length);
        if (count(same_verdict(expected, santubeli_check(bytes, length))))
            printf("check of %zu bytes\n", length);
    }
    for (size_t length = 4 * GENERATE_MAX - 8; length <= 4 * GENERATE_MAX + 8; length++) {
        const struct second_verdict expected = second_check_bytes(bytes, length);
        if (count(same_verdict(expected, santubeli_check(bytes, length))))
            printf("check of %zu bytes\n", length);
    }
}

static void check_all(struct generate_source *source, unsigned rounds)
{
    static uint32_t tokens[GENERATE_ROOM];
    for (unsigned round = 0; round < rounds; round++) {
        const unsigned version = round % GENERATE_VERSIONS;
        const size_t maximum = round % 64 == 0 ? GENERATE_MAX : 400;
        const size_t length = generate_length(source, maximum);
        generate_valid(source, version, tokens, length);
        check_stream(NULL, tokens, length);
        const size_t damaged = generate_damaged(source, version, tokens, maximum);
        check_stream(NULL, tokens, damaged);
    }
    for (unsigned version = 0; version < GENERATE_VERSIONS; version++)
        for (unsigned depth = 1; generate_has_blocks(version) && depth <= 26; depth++) {
            const size_t length = generate_nested(source, version, tokens, depth);
            check_stream(NULL, tokens, length);
        }
    check_lengths(source);
    generate_systematic(check_stream, NULL);
}

/* ---- Places of streams ------------------------------------------------ */

typedef void at_place(uint32_t version, const uint32_t *tokens, size_t length, size_t at);
typedef void on_stream(struct generate_source *source, const uint32_t *tokens, size_t length);

/* Lawful streams, and damaged ones. */
static void visit_streams(struct generate_source *source, unsigned rounds, on_stream *visit)
{
    static uint32_t tokens[GENERATE_ROOM];
    for (unsigned round = 0; round < rounds; round++) {
        const unsigned version = round % GENERATE_VERSIONS;
        const size_t length = generate_length(source, 200);
        generate_valid(source, version, tokens, length);
        visit(source, tokens, length);
        const size_t damaged = generate_damaged(source, version, tokens, 200);
        if (damaged > 0)
            visit(source, tokens, damaged);
    }
}

static void visit_any_places(struct generate_source *source, const uint32_t *tokens, size_t length, at_place *visit)
{
    for (unsigned k = 0; k < 4; k++)
        visit(tokens[0], tokens, length, generate_below(source, length + 2));
}

/* The longest stream and one more, a place far away, no version, no tokens. */
static void visit_limits(struct generate_source *source, at_place *visit)
{
    static uint32_t tokens[GENERATE_ROOM];
    generate_valid(source, 0, tokens, GENERATE_MAX);
    tokens[GENERATE_MAX] = 0;
    visit(tokens[0], tokens, GENERATE_MAX, 1);
    visit(tokens[0], tokens, GENERATE_MAX + 1, 1);
    visit(tokens[0], tokens, 5, SIZE_MAX);
    visit(0, tokens, 5, 1);
    visit(tokens[0], NULL, 0, 0);
}

/* ---- Read ------------------------------------------------------------- */

/* The two records have the same fields in the same order, all uint32_t. */
_Static_assert(sizeof(struct second_record) == sizeof(struct santubeli_record), "records differ in size");
_Static_assert(sizeof(struct santubeli_record) == 308, "a record is 308 bytes");

static bool same_reading(const struct second_read *expected, const struct santubeli_reading *given)
{
    return SAME_REFUSAL(*expected, *given) && expected->next == given->next
        && memcmp(&expected->record, &given->record, sizeof given->record) == 0;
}

/* The record of an instruction gives its tokens again: the stream is what is expected. */
static void write_back(uint32_t version, const uint32_t *instruction, size_t length, struct santubeli_record record)
{
    uint32_t back[GENERATE_INSTRUCTION];
    const struct santubeli_written given = santubeli_write(version, record, NULL, 0, back, GENERATE_INSTRUCTION, 0);
    if (count(given.number == 0 && given.next == length && memcmp(back, instruction, length * sizeof *back) == 0))
        show("write back", instruction, length);
}

static void read_at(uint32_t version, const uint32_t *tokens, size_t length, size_t at)
{
    const struct second_read expected = second_read(version, tokens, length, at);
    const struct santubeli_reading given = santubeli_read(version, tokens, length, at);
    if (count(same_reading(&expected, &given))) {
        show("read", tokens, length);
        printf("  at %zu, next %" PRIu64 " and %zu\n", at, expected.next, given.next);
        SHOW_REFUSALS(expected, given);
    }
    if (given.number == 0 && given.record.opcode != SECOND_COMMENT)
        write_back(version, tokens + at, given.next - at, given.record);
}

/* Reads from boundary to boundary, and at some places between. */
static void read_stream(struct generate_source *source, const uint32_t *tokens, size_t length)
{
    for (size_t at = 1; at < length;) {
        const struct second_read one = second_read(tokens[0], tokens, length, at);
        read_at(tokens[0], tokens, length, at);
        if (one.number != 0)
            break;
        at = one.next;
    }
    visit_any_places(source, tokens, length, read_at);
}

static void read_one(void *context, const uint32_t *tokens, size_t length)
{
    (void)context;
    if (length > 1)
        read_at(tokens[0], tokens, length, 1);
}

static void read_all(struct generate_source *source, unsigned rounds)
{
    visit_streams(source, rounds, read_stream);
    visit_limits(source, read_at);
    generate_systematic(read_one, NULL);
}

/* ---- Notes ------------------------------------------------------------ */

static void note_at(uint32_t version, const uint32_t *tokens, size_t length, size_t from)
{
    const struct second_noted expected = second_note(version, tokens, length, from);
    const struct santubeli_noted given = santubeli_note(version, tokens, length, from);
    if (count(SAME_REFUSAL(expected, given) && expected.notes == given.notes && expected.at == given.at
              && expected.comments == given.comments && expected.next == given.next)) {
        show("note", tokens, length);
        printf("  from %zu: notes %" PRIu32 " at %" PRIu64 " and %" PRIu32 " at %zu\n", from, expected.notes, expected.at,
               given.notes, given.at);
        SHOW_REFUSALS(expected, given);
    }
}

/* From note to note, and from some places between. */
static void note_stream(struct generate_source *source, const uint32_t *tokens, size_t length)
{
    for (size_t from = 1; from < length;) {
        const struct second_noted one = second_note(tokens[0], tokens, length, from);
        note_at(tokens[0], tokens, length, from);
        if (one.number != 0 || one.notes == 0)
            break;
        from = (size_t)one.next;
    }
    visit_any_places(source, tokens, length, note_at);
}

static void note_one(void *context, const uint32_t *tokens, size_t length)
{
    (void)context;
    if (length > 1)
        note_at(tokens[0], tokens, length, 1);
}

/* A stream of comments, most of them empty, with an instruction here and there. */
static size_t comments_stream(struct generate_source *source, unsigned version, uint32_t *tokens)
{
    const size_t pieces = generate_below(source, 12);
    size_t length = 0;
    tokens[length++] = generate_version(version);
    for (size_t k = 0; k < pieces; k++) {
        if (generate_chance(source, 1, 4)) {
            length += generate_instruction(source, version, tokens + length, GENERATE_INSTRUCTION);
            continue;
        }
        const uint32_t body = generate_chance(source, 2, 3) ? 0 : (uint32_t)generate_below(source, 3);
        tokens[length++] = 0xFFFE | body << 16;
        for (uint32_t b = 0; b < body; b++)
            tokens[length++] = generate_chance(source, 1, 2) ? 0x0000FFFF : 0x0000FFFE;
    }
    tokens[length++] = 0x0000FFFF;
    return length;
}

static void note_all(struct generate_source *source, unsigned rounds)
{
    static uint32_t tokens[GENERATE_ROOM];
    visit_streams(source, rounds, note_stream);
    for (unsigned round = 0; round < rounds; round++)
        note_stream(source, tokens, comments_stream(source, round % GENERATE_VERSIONS, tokens));
    visit_limits(source, note_at);
    generate_systematic(note_one, NULL);
}

/* ---- Write ------------------------------------------------------------ */

static void write_record(struct generate_source *source, uint32_t version, const struct second_record *record)
{
    static uint32_t body[GENERATE_ROOM], mine[256], theirs[256];
    static uint32_t large_mine[GENERATE_ROOM], large_theirs[GENERATE_ROOM];
    const size_t body_length = generate_body_length(source, record);
    const bool large = body_length > 200;
    uint32_t *a = large ? large_mine : mine, *b = large ? large_theirs : theirs;
    const size_t length = large ? GENERATE_ROOM : generate_below(source, 257);
    const size_t at = generate_below(source, 8) == 0 ? length + generate_below(source, 3) : generate_below(source, length + 1);
    struct santubeli_record same;

    for (size_t k = 0; k < length; k++)
        a[k] = b[k] = 0xAAAA0000u + (uint32_t)k;
    for (size_t k = 0; k < body_length; k++)
        body[k] = 0xBBBB0000u + (uint32_t)k;
    memcpy(&same, record, sizeof same);
    const struct second_written expected = second_write(version, record, body, body_length, b, length, at);
    const struct santubeli_written given = santubeli_write(version, same, body, body_length, a, length, at);
    if (count(expected.number == given.number && expected.position == given.position && expected.next == given.next
              && memcmp(a, b, length * sizeof *a) == 0))
        printf("write of opcode %" PRIu32 ": second %" PRIu32 " next %" PRIu64 ", proved %" PRIu32 " next %zu\n", record->opcode,
               expected.number, expected.next, given.number, given.next);
}

static void write_all(struct generate_source *source, unsigned rounds)
{
    for (unsigned round = 0; round < rounds; round++) {
        const unsigned version = round % GENERATE_VERSIONS;
        const struct second_record record = generate_record(source, version);
        write_record(source, generate_version(version), &record);
        write_record(source, generate_version((version + 1) % GENERATE_VERSIONS), &record);
        const struct second_record disturbed =
            generate_disturbed(&record, (unsigned)generate_below(source, GENERATE_DISTURBANCES));
        write_record(source, generate_version(version), &disturbed);
        const struct second_record any = generate_random_record(source);
        write_record(source, generate_chance(source, 1, 50) ? generate_u32(source) : generate_version(version), &any);
    }
    /* every field of one record of each version disturbed in every way */
    for (unsigned version = 0; version < GENERATE_VERSIONS; version++)
        for (unsigned one = 0; one < 4; one++) {
            const struct second_record record = generate_record(source, version);
            for (unsigned which = 0; which < GENERATE_DISTURBANCES; which++) {
                const struct second_record disturbed = generate_disturbed(&record, which);
                write_record(source, generate_version(version), &disturbed);
            }
        }
}

/* ---- Edit ------------------------------------------------------------- */

static void edit_one(const struct generate_edit *edit)
{
    static uint32_t mine[GENERATE_ROOM], theirs[GENERATE_ROOM];
    memcpy(mine, edit->buffer, edit->buffer_length * sizeof *mine);
    memcpy(theirs, edit->buffer, edit->buffer_length * sizeof *theirs);
    const struct second_verdict old = second_check(theirs, edit->n <= edit->buffer_length ? edit->n : 0);
    const struct second_edited expected =
        second_edit(theirs, edit->buffer_length, edit->n, edit->i, edit->j, edit->run, edit->m);
    const struct santubeli_edited given =
        santubeli_edit(mine, edit->buffer_length, edit->n, edit->i, edit->j, edit->run, edit->m);
    bool same = SAME_REFUSAL(expected, given) && expected.joined == given.joined && expected.length == given.length
        && memcmp(mine, theirs, edit->buffer_length * sizeof *mine) == 0;
    /* a fresh check of the splice: a yes of an accepted stream is a yes */
    if (same && given.number == 0 && old.number == 0)
        same = santubeli_check_tokens(mine, given.length).number == 0;
    if (count(same)) {
        show("edit", edit->buffer, edit->n <= edit->buffer_length ? edit->n : 0);
        show("  run", edit->run, edit->m);
        printf("  n %zu i %zu j %zu m %zu room %zu: joined %" PRIu32 " length %" PRIu64 " and joined %" PRIu32 " length %zu\n",
               edit->n, edit->i, edit->j, edit->m, edit->buffer_length, expected.joined, expected.length, given.joined,
               given.length);
        SHOW_REFUSALS(expected, given);
    }
}

static void edit_all(struct generate_source *source, unsigned rounds)
{
    static struct generate_edit edit;
    for (unsigned round = 0; round < rounds; round++) {
        generate_edit(source, round % GENERATE_VERSIONS, round % 64 == 0 ? GENERATE_MAX : 120, &edit);
        if (edit.m <= GENERATE_ROOM) /* a longer run is never read, but a slice of it cannot be lent */
            edit_one(&edit);
    }
}

/* ---- Flipped bits ----------------------------------------------------- */

/* How often the library has given each number with each detail. */
static uint64_t told[32][32];

/* An operand token with flipped bits: its run as a stream, as a slice that is read, and as the run of an edit. */
static void compare_run(void *context, const struct generate_run *run)
{
    static struct generate_edit edit;
    uint32_t tokens[sizeof run->tokens / sizeof *run->tokens + 2] = {run->version};
    const size_t length = run->count + 2;
    (void)context;

    memcpy(tokens + 1, run->tokens, run->count * sizeof *tokens);
    tokens[length - 1] = SECOND_END;
    check_stream(NULL, tokens, length);
    read_at(run->version, tokens, length, 1 + run->instruction);
    read_at(run->version, run->tokens + run->instruction, run->count - run->instruction, 0);
    note_at(run->version, tokens, length, 1);

    /* behind the NOP of an accepted stream */
    edit.buffer[0] = run->version;
    edit.buffer[1] = 0;
    edit.buffer[2] = SECOND_END;
    edit.n = 3;
    edit.i = edit.j = 2;
    edit.m = run->count;
    edit.buffer_length = edit.n + edit.m;
    memcpy(edit.run, run->tokens, run->count * sizeof *edit.run);
    edit_one(&edit);

    const struct santubeli_verdict given = santubeli_check_tokens(tokens, length);
    if (given.number < 32 && given.detail < 32)
        told[given.number][given.detail]++;
}

/* Each bit is told as RESERVED by some token, one of each of the other two, and none by any other number. */
static bool is_told(unsigned number, unsigned bit)
{
    switch (number) {
    case SANTUBELI_RESERVED: return true;
    case SANTUBELI_MODIFIER: return bit == 24;
    case SANTUBELI_RELATIVE: return bit == 13;
    default: return bit == 0 && (number == 0 || number == SANTUBELI_SIZE || number == SANTUBELI_REGISTER);
    }
}

static void flip_all(void)
{
    const uint64_t before = passed + failed;
    const size_t tokens = generate_flipped(compare_run, NULL);
    uint64_t runs = 0;

    printf("%zu operand tokens with each bit and each two bits flipped: %" PRIu64 " comparisons\n", tokens,
           passed + failed - before);
    for (unsigned number = 0; number < 32; number++)
        for (unsigned bit = 0; bit < 32; bit++) {
            runs += told[number][bit];
            if (count((told[number][bit] > 0) == is_told(number, bit)))
                printf("number %u with detail %u: given %" PRIu64 " times\n", number, bit, told[number][bit]);
        }
    if (count(tokens > 1000 && runs == (uint64_t)tokens * GENERATE_FLIPS))
        printf("%" PRIu64 " runs\n", runs);
}

int main(int argc, char **argv)
{
    const uint64_t seed = argc > 1 ? strtoull(argv[1], NULL, 0) : 1;
    const unsigned rounds = argc > 2 ? (unsigned)strtoul(argv[2], NULL, 0) : 20000;
    struct generate_source source = generate_seed(seed);

    check_all(&source, rounds);
    read_all(&source, rounds / 4);
    note_all(&source, rounds / 4);
    write_all(&source, rounds);
    edit_all(&source, 2 * rounds);
    flip_all();
    printf("%" PRIu64 " passed, %" PRIu64 " failed\n", passed, failed);
    return failed != 0;
}
