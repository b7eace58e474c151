/*
 * Seeded, repeatable test data: token streams lawful, systematic and damaged,
 * edits and records. The same seed gives the same data on every machine.
 *
 * The tables in generate.c are typed from documents 01 and 02 and from
 * docs/FIRST-VERSIONS.md by themselves and share nothing with second.c;
 * second_read is used only to cut streams into instructions and to turn lawful
 * tokens into records.
 */
#ifndef GENERATE_H
#define GENERATE_H

#include "../../second/second.h"

#include <stdbool.h>
#include <stddef.h>
#include <stdint.h>

enum {
    GENERATE_MAX = 16384,         /* longest lawful stream */
    GENERATE_ROOM = 16384 + 1024, /* tokens a lent array must hold */
    GENERATE_VERSIONS = 9,        /* V2, V3, P2, P3, V1, P11 to P14, in this order */
    GENERATE_INSTRUCTION = 16     /* an instruction has no more tokens than this */
};

/* ---- Numbers ---------------------------------------------------------- */

struct generate_source {
    uint64_t state;
};

struct generate_source generate_seed(uint64_t seed);
uint64_t generate_u64(struct generate_source *source);
uint32_t generate_u32(struct generate_source *source);
/* Below bound, which is not 0. */
size_t generate_below(struct generate_source *source, size_t bound);
/* True `parts` times in `of`. */
bool generate_chance(struct generate_source *source, unsigned parts, unsigned of);

/* ---- Streams ---------------------------------------------------------- */

/* The version's first token. */
uint32_t generate_version(unsigned version);

/* Whether the version has IF, LOOP and REP. */
bool generate_has_blocks(unsigned version);

/* One lawful instruction of at most `most` tokens (at least 1) that opens, closes and
   asks for no block. Gives its length. */
size_t generate_instruction(struct generate_source *source, unsigned version,
                            uint32_t *tokens, size_t most);

/* A lawful stream of exactly `length` tokens, 2 to 16,384. Gives the number of
   instructions that the check must state. */
uint32_t generate_valid(struct generate_source *source, unsigned version,
                        uint32_t *tokens, size_t length);

/* A length from 2 to maximum, short ones oftener than long ones. */
size_t generate_length(struct generate_source *source, size_t maximum);

/* Damages a stream of *count tokens in one place; the new count is at most
   GENERATE_ROOM. */
void generate_damage(struct generate_source *source, uint32_t *tokens, size_t *count);

/* A lawful stream damaged in one to three places. Gives the count. */
size_t generate_damaged(struct generate_source *source, unsigned version,
                        uint32_t *tokens, size_t maximum);

/* Blocks of mixed kinds nested `depth` deep and closed again, in a version that
   has blocks. Gives the count. */
size_t generate_nested(struct generate_source *source, unsigned version,
                       uint32_t *tokens, unsigned depth);

/*
 * Every stream of the systematic set, some hundred thousand, each with one
 * instruction under test: opcodes 0 to 100 and FFFC to FFFF in every version,
 * every place with all types and modifiers or shift scales, with and without
 * bit 13, relative tokens and a predicate, which stands at every place once,
 * each bit flipped, each size, the stream cut behind each token, many controls,
 * and DCL's forms. Gives how many there were.
 */
typedef void generate_visit(void *context, const uint32_t *tokens, size_t count);
uint64_t generate_systematic(generate_visit *visit, void *context);

/*
 * One operand token of a lawful run of instructions, and the same with bits of
 * it flipped: none, each one, and each two, GENERATE_FLIPS runs for one token.
 * The tokens are, in every version, those of every shape of operands with every
 * type that the place takes, with relative tokens and predicates where they may
 * be, and of DCL in every form. Gives how many tokens there were.
 */
enum { GENERATE_FLIPS = 1 + 32 + 32 * 31 / 2 };

struct generate_run {
    uint32_t version; /* its first token */
    uint32_t tokens[GENERATE_INSTRUCTION + 16];
    size_t count;
    size_t instruction; /* where the instruction with the token begins */
};
typedef void generate_visit_run(void *context, const struct generate_run *run);
size_t generate_flipped(generate_visit_run *visit, void *context);

/* ---- Edits ------------------------------------------------------------ */

struct generate_edit {
    uint32_t buffer[GENERATE_ROOM];
    size_t buffer_length, n, i, j;
    uint32_t run[GENERATE_ROOM];
    size_t m;
};

/* An edit of a stream of at most `maximum` tokens, which may be damaged. The
   whole buffer is filled. m above GENERATE_ROOM is possible: then the run must
   not be read (ROOM or an earlier refusal is the answer). */
void generate_edit(struct generate_source *source, unsigned version, size_t maximum,
                   struct generate_edit *edit);

/* ---- Records ---------------------------------------------------------- */

enum {
    GENERATE_FIELDS = sizeof(struct second_record) / sizeof(uint32_t),
    GENERATE_CHANGES = 36, /* for each field: 32 bits flipped and 4 values */
    GENERATE_DISTURBANCES = GENERATE_FIELDS * GENERATE_CHANGES
};

/* Any lawful instruction, also those with block rules, comments and END. */
size_t generate_any(struct generate_source *source, unsigned version, uint32_t *tokens, size_t most);

/* A record of a lawful instruction of this version. */
struct second_record generate_record(struct generate_source *source, unsigned version);

/* The record with one field changed; which below GENERATE_DISTURBANCES. */
struct second_record generate_disturbed(const struct second_record *record, unsigned which);

/* A record of random fields, seldom lawful; some are comments. */
struct second_record generate_random_record(struct generate_source *source);

/* A length for the body to write with a record, mostly the record's own and
   always below GENERATE_ROOM. */
size_t generate_body_length(struct generate_source *source, const struct second_record *record);

#endif
