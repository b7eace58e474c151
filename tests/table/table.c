/*
 * The tables of the documents against the second program: reads the lines that rows.awk makes of them, and asks of all
 * 65,536 opcodes in all nine versions whether there is such an instruction, how many operands it has, whether each is a
 * destination, a source, a usage token or any 32 bits, and which of the 32 register types each place takes.
 *
 * Every question is put to second_read, by an instruction that is lawful by the table but for what is asked.
 */
#include "../../second/second.h"

#include <inttypes.h>
#include <stdbool.h>
#include <stdio.h>
#include <stdlib.h>
#include <string.h>

enum { VERSIONS = 9, OPCODES = 0x10000, PLACES = 5, CELLS = 1024, SHOWN = 20 };

static const uint32_t versions[VERSIONS] = {
    0xFFFE0101, 0xFFFE0200, 0xFFFE0300, 0xFFFF0101, 0xFFFF0102, 0xFFFF0103, 0xFFFF0104, 0xFFFF0200, 0xFFFF0300,
};

struct cell {
    size_t places;
    char kind[PLACES];      /* D, S, R or U */
    uint32_t types[PLACES]; /* as a set */
};

static struct cell cells[CELLS];
static const struct cell *table[VERSIONS][OPCODES];
static unsigned long passed, failed;

static void say(bool right, uint32_t version, uint32_t opcode, const char *what, size_t which)
{
    if (right) {
        passed++;
        return;
    }
    failed++;
    if (failed <= SHOWN)
        printf("%08" PRIX32 ", opcode %" PRIu32 ": %s %zu\n", version, opcode, what, which);
}

/* ---- What the documents say ------------------------------------------- */

static uint32_t parse_types(const char *text)
{
    uint32_t types = 0;

    while (*text != '\0') {
        char *end;
        types |= UINT32_C(1) << (strtoul(text, &end, 10) & 31);
        text = *end == ',' ? end + 1 : "";
    }
    return types;
}

/* One line into the table; false if it is none, or says again what was said. */
static bool take_line(char *line, struct cell *cell)
{
    const char *word = strtok(line, " \n");
    const char *const opcode_word = strtok(NULL, " \n");
    unsigned version = 0;

    if (word == NULL || opcode_word == NULL)
        return false;
    while (version < VERSIONS && strtoul(word, NULL, 16) != versions[version])
        version++;
    const unsigned long opcode = strtoul(opcode_word, NULL, 10);
    if (version == VERSIONS || opcode >= SECOND_COMMENT || table[version][opcode] != NULL)
        return false;
    for (cell->places = 0; (word = strtok(NULL, " \n")) != NULL; cell->places++) {
        if (cell->places == PLACES || strchr("DSRU", word[0]) == NULL || (word[1] != ':') != (word[1] == '\0'))
            return false;
        cell->kind[cell->places] = word[0];
        cell->types[cell->places] = word[1] == ':' ? parse_types(word + 2) : 0;
    }
    table[version][opcode] = cell;
    return true;
}

/* ---- Instructions ----------------------------------------------------- */

static bool has_sizes(uint32_t version)
{
    return (version & 0xFF00) != 0x0100;
}

static unsigned lowest(uint32_t types)
{
    unsigned type = 0;

    while (type < 31 && !(types >> type & 1))
        type++;
    return type;
}

static uint32_t operand(char kind, unsigned type)
{
    const uint32_t bits = 0x80000000 | (uint32_t)(type & 7) << 28 | (uint32_t)(type >> 3) << 11;

    switch (kind) {
    case 'D': return bits | 0x000F0000;
    case 'S': return bits | 0x00E40000;
    default: return 0;
    }
}

struct instruction {
    uint32_t version;
    size_t count; /* of the tokens that are lawful */
    uint32_t token[PLACES + 2];
};

static uint32_t with_size(const struct instruction *made, size_t size)
{
    const uint32_t rest = made->token[0] & 0xF0FFFFFF;
    return has_sizes(made->version) ? rest | (uint32_t)size << 24 : rest;
}

static struct second_read asked(const struct instruction *made)
{
    return second_read(made->version, made->token, made->count, 0);
}

/* U that goes with a destination of this type: a sampler's texture, or usage 0, which is the plain form as well. */
static uint32_t usage_for(unsigned type)
{
    return type == 10 ? 0x90000000 : 0x80000000;
}

/* The plainest instruction of a cell; one that compares has controls. */
static struct instruction make(uint32_t version, uint32_t opcode, const struct cell *cell)
{
    struct instruction made = {version, 1 + cell->places, {opcode}};

    for (size_t k = 0; k < cell->places; k++)
        made.token[1 + k] = cell->kind[k] == 'U' ? usage_for(lowest(cell->types[k + 1]))
                                                 : operand(cell->kind[k], lowest(cell->types[k]));
    made.token[0] = with_size(&made, cell->places);
    if (asked(&made).number == SECOND_BITS)
        made.token[0] |= 0x00010000;
    return made;
}

static bool refused(struct second_read read, uint32_t number, size_t position, uint32_t detail)
{
    return read.number == number && read.position == position && read.detail == detail;
}

/* ---- Questions -------------------------------------------------------- */

static void ask_count(uint32_t opcode, const struct cell *cell, const struct instruction *made)
{
    const size_t count = cell->places;
    struct instruction other = *made;
    struct second_read read = asked(made);

    say(read.number == 0 && read.next == 1 + count, made->version, opcode, "is not accepted with operands", count);
    if (count > 0) {
        if (has_sizes(made->version))
            other.token[0] = with_size(made, count - 1);
        else
            other.count--;
        say(refused(asked(&other), has_sizes(made->version) ? SECOND_SIZE : SECOND_RUN_OUT, 0, 0), made->version, opcode,
            "takes fewer operands than", count);
    }
    other = *made;
    other.count++;
    other.token[0] = with_size(made, count + 1);
    read = asked(&other);
    say(has_sizes(made->version) ? refused(read, SECOND_SIZE, 0, 0) : read.number == 0 && read.next == 1 + count, made->version,
        opcode, "takes more operands than", count);
}

/* Bit 23 is zero in every destination and free in every source. */
static void ask_kind(uint32_t opcode, const struct cell *cell, const struct instruction *made, size_t k)
{
    struct instruction other = *made;
    bool right = false;

    switch (cell->kind[k]) {
    case 'D':
        other.token[1 + k] ^= 0x00800000;
        right = refused(asked(&other), SECOND_RESERVED, 1 + k, 23);
        break;
    case 'S':
        other.token[1 + k] ^= 0x00800000;
        right = asked(&other).number == 0;
        break;
    case 'R':
        other.token[1 + k] = 0xFFFFFFFF;
        right = asked(&other).number == 0;
        break;
    case 'U':
        other.token[1 + k] = 0;
        right = refused(asked(&other), SECOND_RESERVED, 1 + k, 31);
        break;
    }
    say(right, made->version, opcode, "has another kind of operand at", k + 1);
}

static void ask_types(uint32_t opcode, const struct cell *cell, const struct instruction *made, size_t k)
{
    struct instruction other = *made;

    for (unsigned type = 0; type < 32; type++) {
        const bool takes = cell->types[k] >> type & 1;
        other.token[1 + k] = operand(cell->kind[k], type);
        if (k > 0 && cell->kind[k - 1] == 'U')
            other.token[k] = usage_for(type);
        const struct second_read read = asked(&other);
        say(takes ? read.number == 0 : refused(read, SECOND_REGISTER, 1 + k, 0), made->version, opcode,
            takes ? "refuses a type at" : "takes a type at", k + 1);
    }
}

static void ask(uint32_t version, uint32_t opcode, const struct cell *cell)
{
    const uint32_t token = opcode;
    const bool known = second_read(version, &token, 1, 0).number != SECOND_OPCODE;

    if (opcode == SECOND_COMMENT || opcode == SECOND_END) {
        say(known, version, opcode, "is no comment and no END", 0);
        return;
    }
    say(known == (cell != NULL), version, opcode, known ? "is known" : "is not known", 0);
    if (cell == NULL || !known)
        return;

    const struct instruction made = make(version, opcode, cell);
    ask_count(opcode, cell, &made);
    for (size_t k = 0; k < cell->places; k++) {
        ask_kind(opcode, cell, &made, k);
        if (cell->kind[k] == 'D' || cell->kind[k] == 'S')
            ask_types(opcode, cell, &made, k);
    }
}

int main(void)
{
    char line[256];
    size_t lines = 0;

    while (fgets(line, sizeof line, stdin) != NULL) {
        if (lines == CELLS || !take_line(line, &cells[lines])) {
            printf("line %zu is no row, or one that was there\n0 passed, 1 failed\n", lines + 1);
            return 1;
        }
        lines++;
    }
    for (unsigned version = 0; version < VERSIONS; version++)
        for (uint32_t opcode = 0; opcode < OPCODES; opcode++)
            ask(versions[version], opcode, table[version][opcode]);
    printf("%zu rows\n%lu passed, %lu failed\n", lines, passed, failed);
    return failed != 0;
}
