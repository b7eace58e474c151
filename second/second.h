/*
 * A second program for the rules of documents 01 and 02: check, reader, writer
 * and edit of shader token streams, and the shapes of docs/DRIVERS.md (vs_1_1, vs_2_0, vs_3_0, ps_1_1 to ps_1_4,
 * ps_2_0, ps_3_0).
 *
 * Nothing here allocates or keeps state between calls. A pointer whose length
 * is 0 may be null.
 */
#ifndef SECOND_H
#define SECOND_H

#include <stddef.h>
#include <stdint.h>

enum second_number {
    SECOND_YES = 0,
    SECOND_LENGTH = 1,
    SECOND_VERSION = 2,
    SECOND_OPCODE = 3,
    SECOND_BITS = 4,
    SECOND_RUN_OUT = 5,
    SECOND_SIZE = 6,
    /* 7 is out of use: request Q-3 */
    SECOND_REGISTER = 8,
    SECOND_BLOCK = 9,
    SECOND_DEPTH = 10,
    SECOND_TAIL = 11,
    SECOND_PLACE = 12,
    SECOND_ROOM = 13,
    SECOND_RECORD = 14,
    SECOND_RESERVED = 16,
    SECOND_MODIFIER = 17,
    SECOND_RELATIVE = 18
};

enum {
    SECOND_MAX_TOKENS = 16384, /* longest stream */
    SECOND_MAX_BLOCKS = 24,    /* most blocks open at once */
    SECOND_OPERANDS = 6,       /* five operands and the predicate */
    SECOND_PREDICATE = 5,      /* the predicate's place in a record */
    SECOND_COMMENT = 0xFFFE,   /* opcode of a comment's record */
    SECOND_END = 0xFFFF        /* opcode of END's record */
};

/* Yes: number 0, position 0, detail 0, the token count and the instruction count.
   Refusal: number, position and detail, the counts 0. detail is the bit that
   numbers 16 to 18 tell, and 0 of any other number. */
struct second_verdict {
    uint32_t number, position, detail, tokens, instructions;
};

/* Judges a stream given as tokens. */
struct second_verdict second_check(const uint32_t *tokens, size_t count);

/* Judges a stream given as bytes, each token little-endian. */
struct second_verdict second_check_bytes(const uint8_t *bytes, size_t length);

/*
 * One operand of a record.
 *   destination  number, type, mask, result (bits 22:20), shift (bits 27:24), relative
 *   source       number, type, swizzle, modifier, relative
 *   R or U       raw
 * relative is 1 where a relative token follows; the relative_ fields are that
 * token's. In vs_1_1 it is bit 13 alone: no token follows and the relative_
 * fields are 0. All fields not named are 0.
 */
struct second_operand {
    uint32_t number, type, mask, swizzle, modifier, result, shift;
    uint32_t relative, relative_number, relative_type, relative_swizzle;
    uint32_t raw;
};

/*
 * One instruction. operands[0] to operands[4] are in token order, the
 * predicate is always operands[5]; unused places are all zero.
 *   comment  opcode SECOND_COMMENT and length, all else 0
 *   END      opcode SECOND_END, all else 0
 *   other    length 0; coissue is bit 30, which only ps_1_1 to ps_1_4 have
 */
struct second_record {
    uint32_t opcode, controls, predicated, coissue, length;
    struct second_operand operands[SECOND_OPERANDS];
};

/* Refusal: next 0, record all zero. */
struct second_read {
    uint32_t number, position, detail;
    uint64_t next;
    struct second_record record;
};

/* Reads the instruction at tokens[at]. Positions count from tokens[0]. */
struct second_read second_read(uint32_t version, const uint32_t *tokens, size_t count, size_t at);

/*
 * Shapes that a driver reads otherwise, by docs/DRIVERS.md. Yes: number, position
 * and detail 0; the sum of the shapes at `at` (0 at an END without one), where
 * the comments right before it begin, and the place behind it. Refusal: all else 0.
 */
enum second_shape {
    SECOND_WINED3D_COMMENTS = 1,
    SECOND_NINE_COMMENTS = 2,
    SECOND_WINED3D_SGN = 4,
    SECOND_MOJOSHADER_PREDICATE = 8,
    SECOND_MOJOSHADER_DESTINATION = 16,
    SECOND_MOJOSHADER_PHASE = 32
};

struct second_noted {
    uint32_t number, position, detail, notes;
    uint64_t at, comments, next;
};

/* The first instruction with a shape from tokens[from] on, or END. */
struct second_noted second_note(uint32_t version, const uint32_t *tokens, size_t count, size_t from);

/* Refusal: next 0. */
struct second_written {
    uint32_t number, position;
    uint64_t next;
};

/* Writes a record at buffer[at]; body is a comment's content, else empty. */
struct second_written second_write(uint32_t version, const struct second_record *record,
                                   const uint32_t *body, size_t body_length,
                                   uint32_t *buffer, size_t buffer_length, size_t at);

/* Yes: number 0, detail 0, joined 1 for JOINED and 0 for ACCEPTED, the new length.
   Refusal: joined 0, length 0, and the buffer is as it was. */
struct second_edited {
    uint32_t number, position, detail;
    uint32_t joined;
    uint64_t length;
};

/* Replaces the tokens i to j of the stream buffer[0..n] by a run of m tokens. */
struct second_edited second_edit(uint32_t *buffer, size_t buffer_length, size_t n,
                                 size_t i, size_t j, const uint32_t *run, size_t m);

#endif
