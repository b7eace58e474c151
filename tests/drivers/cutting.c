/*
 * How the proved library judges and cuts each stream of a batch (see batches.c), one line each:
 *
 *   S index number position tokens instructions
 *       a stream begins: its index from 0, and what santubeli_check says of it
 *   I at next opcode controls predicated coissue operand...
 *       an instruction, comment or END that santubeli_read reads, from token 1 on; of a refused stream only what stands
 *       before the refused instruction, and of one refused for its tail all up to END
 *   F at next opcode controls predicated coissue operand...
 *       of a refused stream, how the reader alone goes on from the refused instruction: without regard to blocks, and,
 *       where a stated size is wrong, with the size that the operands themselves take
 *   X number position
 *       the reader itself refuses here, and no size helps; never in an accepted stream
 *   N notes at comments
 *       of an accepted stream, behind its instructions: an instruction with shapes that santubeli_note tells
 *
 * All numbers are decimal, positions count tokens of the stream. Operands are those that are registers, in the order of
 * their tokens: neither U of DCL nor the values of DEF, DEFI and DEFB. An operand is token.type.number, and behind it
 * +token.type.number where it is relative. In vs_1_1 no token follows and a0 is meant: +0.3.0. A predicate has a ?
 * before it.
 *
 *   cutting BATCH
 */
#include "../../include/santubeli.h"

#include <stdbool.h>
#include <stdio.h>
#include <stdlib.h>

enum { DCL = 31, DEFB = 47, DEFI = 48, DEF = 81, COMMENT = 0xFFFE, END = 0xFFFF };
enum { ORDERED = 5, PREDICATE = 5, MOST_BYTES = 1 << 20 };

static bool is_first_version(uint32_t version)
{
    return (version & 0xFF00) == 0x0100;
}

/* Prints an operand whose token is at `token`, and gives the position behind it. */
static size_t print_operand(uint32_t version, const struct santubeli_operand *operand, size_t token, const char *mark)
{
    printf(" %s%zu.%u.%u", mark, token, operand->type, operand->number);
    token++;
    if (operand->relative && is_first_version(version))
        printf("+0.3.0");
    else if (operand->relative) {
        printf("+%zu.%u.%u", token, operand->relative_type, operand->relative_number);
        token++;
    }
    return token;
}

static void print_operands(uint32_t version, const struct santubeli_record *record, size_t token, size_t next)
{
    const bool defines = record->opcode == DEF || record->opcode == DEFI || record->opcode == DEFB;

    for (int k = 0; k < ORDERED && token < next; k++) {
        if (record->opcode == DCL && k == 0) {
            token++;
            continue;
        }
        token = print_operand(version, &record->operands[k], token, "");
        if (defines)
            return;
        if (k == 0 && record->predicated)
            token = print_operand(version, &record->operands[PREDICATE], token, "?");
    }
}

static void print_instruction(char tag, uint32_t version, size_t at, const struct santubeli_reading *reading)
{
    const struct santubeli_record *const record = &reading->record;

    printf("%c %zu %zu %u %u %u %u", tag, at, reading->next, record->opcode, record->controls, record->predicated,
           record->coissue);
    if (record->opcode < COMMENT)
        print_operands(version, record, at + 1, reading->next);
    printf("\n");
}

/* Reads with each size in turn until one is right; the token is put back. */
static struct santubeli_reading read_by_operands(uint32_t *tokens, size_t count, size_t at)
{
    struct santubeli_reading reading = santubeli_read(tokens[0], tokens, count, at);
    const struct santubeli_reading as_it_stands = reading;

    if ((reading.number != SANTUBELI_SIZE && reading.number != SANTUBELI_RUN_OUT) || at >= count)
        return reading;
    const uint32_t stated = tokens[at];
    if ((stated & 0xFFFF) == COMMENT) /* its length has bits there */
        return reading;
    for (uint32_t size = 0; size < 16 && reading.number != SANTUBELI_YES; size++) {
        tokens[at] = (stated & 0xF0FFFFFF) | size << 24;
        reading = santubeli_read(tokens[0], tokens, count, at);
    }
    tokens[at] = stated;
    return reading.number == SANTUBELI_YES ? reading : as_it_stands;
}

/* The refusal's instruction is where the reader refuses, or where the blocks are wrong. */
static void print_cut(uint32_t *tokens, size_t count, const struct santubeli_verdict *verdict)
{
    const bool blocks = verdict->number == SANTUBELI_BLOCK || verdict->number == SANTUBELI_DEPTH;
    char tag = 'I';
    size_t at = 1;

    for (;;) {
        struct santubeli_reading reading = santubeli_read(tokens[0], tokens, count, at);
        if (reading.number != SANTUBELI_YES || (blocks && at == verdict->position))
            tag = 'F';
        if (tag == 'F')
            reading = read_by_operands(tokens, count, at);
        if (reading.number != SANTUBELI_YES) {
            printf("X %u %zu\n", reading.number, reading.position);
            return;
        }
        print_instruction(tag, tokens[0], at, &reading);
        if (reading.record.opcode == END)
            return;
        at = reading.next;
    }
}

static void print_notes(const uint32_t *tokens, size_t count)
{
    for (size_t from = 1; from < count;) {
        const struct santubeli_noted noted = santubeli_note(tokens[0], tokens, count, from);
        if (noted.number != SANTUBELI_YES || noted.notes == 0)
            return;
        printf("N %u %zu %zu\n", noted.notes, noted.at, noted.comments);
        from = noted.next;
    }
}

static void print_stream(unsigned index, uint32_t *tokens, size_t bytes)
{
    const struct santubeli_verdict verdict = santubeli_check((const uint8_t *)tokens, bytes);

    printf("S %u %u %zu %zu %zu\n", index, verdict.number, verdict.position, verdict.tokens, verdict.instructions);
    if (verdict.number != SANTUBELI_LENGTH && verdict.number != SANTUBELI_VERSION)
        print_cut(tokens, bytes / 4, &verdict);
    if (verdict.number == SANTUBELI_YES)
        print_notes(tokens, bytes / 4);
}

int main(int argc, char **argv)
{
    static uint32_t tokens[MOST_BYTES / 4];
    FILE *const batch = argc == 2 ? fopen(argv[1], "rb") : NULL;
    uint32_t bytes;

    if (batch == NULL) {
        fprintf(stderr, "usage: cutting BATCH\n");
        return 2;
    }
    for (unsigned index = 0; fread(&bytes, 4, 1, batch) == 1; index++) {
        if (bytes > MOST_BYTES || fread(tokens, 1, bytes, batch) != bytes) {
            fprintf(stderr, "cutting: stream %u of %s is broken\n", index, argv[1]);
            return 2;
        }
        print_stream(index, tokens, bytes);
    }
    return ferror(batch) || fflush(stdout) != 0 ? 2 : 0;
}
