/*
 * Every entry from C, with arguments that a careful caller would not pass: null with length 0, odd lengths and
 * alignments, places and lengths at the ends of their range. The answers are those of documents 01 and 02.
 */
#include "../../include/santubeli.h"

#include <stdbool.h>
#include <stdio.h>
#include <string.h>

static unsigned passed, failed;

static void expect(bool right, const char *what)
{
    if (right)
        passed++;
    else {
        failed++;
        printf("WRONG: %s\n", what);
    }
}

/* The structs as the header has them, the detail behind the position. */
#define STANDS(type, field, offset) _Static_assert(offsetof(struct type, field) == (offset), #type "." #field)
STANDS(santubeli_verdict, position, 8);
STANDS(santubeli_verdict, detail, 16);
STANDS(santubeli_verdict, tokens, 24);
STANDS(santubeli_verdict, instructions, 32);
STANDS(santubeli_reading, position, 8);
STANDS(santubeli_reading, detail, 16);
STANDS(santubeli_reading, next, 24);
STANDS(santubeli_reading, record, 32);
STANDS(santubeli_noted, position, 8);
STANDS(santubeli_noted, detail, 16);
STANDS(santubeli_noted, notes, 24);
STANDS(santubeli_noted, at, 32);
STANDS(santubeli_noted, comments, 40);
STANDS(santubeli_noted, next, 48);
STANDS(santubeli_written, position, 8);
STANDS(santubeli_written, next, 16);
STANDS(santubeli_edited, position, 8);
STANDS(santubeli_edited, detail, 16);
STANDS(santubeli_edited, joined, 24);
STANDS(santubeli_edited, length, 32);
_Static_assert(sizeof(struct santubeli_verdict) == 40 && sizeof(struct santubeli_reading) == 344
                   && sizeof(struct santubeli_noted) == 56 && sizeof(struct santubeli_written) == 24
                   && sizeof(struct santubeli_edited) == 40, "nothing stands behind the last field");

static bool refused_with(struct santubeli_verdict v, uint32_t number, size_t position, size_t detail)
{
    return v.number == number && v.position == position && v.detail == detail && v.tokens == 0 && v.instructions == 0;
}

static bool refused(struct santubeli_verdict v, uint32_t number, size_t position)
{
    return refused_with(v, number, position, 0);
}

static bool accepted(struct santubeli_verdict v, size_t tokens, size_t instructions)
{
    return v.number == 0 && v.position == 0 && v.detail == 0 && v.tokens == tokens && v.instructions == instructions;
}

static const uint32_t move[] = {0xFFFE0200, 0x02000001, 0x800F0000, 0xA0E40000, 0x0000FFFF};

static void check_entries(void)
{
    static uint8_t bytes[4 * (SANTUBELI_MOST_TOKENS + 1) + 1];
    static uint32_t tokens[SANTUBELI_MOST_TOKENS + 1];

    expect(refused(santubeli_check(NULL, 0), SANTUBELI_LENGTH, 0), "no bytes, null");
    expect(refused(santubeli_check_tokens(NULL, 0), SANTUBELI_LENGTH, 0), "no tokens, null");
    expect(accepted(santubeli_check_tokens(move, 5), 5, 1), "mov r0, c0");
    expect(refused(santubeli_check_tokens(move, 1), SANTUBELI_LENGTH, 0), "the version alone");
    expect(refused(santubeli_check_tokens(move, 4), SANTUBELI_RUN_OUT, 4), "no END");
    expect(refused(santubeli_check_tokens(move + 1, 4), SANTUBELI_VERSION, 0), "no version");

    /* bytes need no alignment */
    for (unsigned offset = 0; offset < 4; offset++) {
        for (unsigned k = 0; k < 5; k++)
            for (unsigned b = 0; b < 4; b++)
                bytes[offset + 4 * k + b] = (uint8_t)(move[k] >> (8 * b));
        expect(accepted(santubeli_check(bytes + offset, 20), 5, 1), "bytes at any address");
        expect(refused(santubeli_check(bytes + offset, 19), SANTUBELI_LENGTH, 0), "19 bytes");
    }

    /* the longest stream, and one more */
    for (size_t k = 0; k <= SANTUBELI_MOST_TOKENS; k++)
        tokens[k] = 0;
    tokens[0] = 0xFFFF0300;
    tokens[SANTUBELI_MOST_TOKENS - 1] = 0x0000FFFF;
    expect(accepted(santubeli_check_tokens(tokens, SANTUBELI_MOST_TOKENS), SANTUBELI_MOST_TOKENS, SANTUBELI_MOST_TOKENS - 2),
           "16,384 tokens");
    expect(refused(santubeli_check_tokens(tokens, SANTUBELI_MOST_TOKENS + 1), SANTUBELI_LENGTH, 0), "16,385 tokens");
    memcpy(bytes, tokens, 4 * SANTUBELI_MOST_TOKENS);
    expect(accepted(santubeli_check(bytes, 4 * SANTUBELI_MOST_TOKENS), SANTUBELI_MOST_TOKENS, SANTUBELI_MOST_TOKENS - 2),
           "65,536 bytes");
    expect(refused(santubeli_check(bytes, 4 * SANTUBELI_MOST_TOKENS + 1), SANTUBELI_LENGTH, 0), "65,537 bytes");
}

static bool unread_with(struct santubeli_reading r, uint32_t number, size_t position, size_t detail)
{
    static const struct santubeli_record none;
    return r.number == number && r.position == position && r.detail == detail && r.next == 0
        && memcmp(&r.record, &none, sizeof none) == 0;
}

static bool unread(struct santubeli_reading r, uint32_t number, size_t position)
{
    return unread_with(r, number, position, 0);
}

static void read_entries(void)
{
    struct santubeli_reading r = santubeli_read(0xFFFE0200, move, 5, 1);
    expect(r.number == 0 && r.position == 0 && r.detail == 0 && r.next == 4, "reading mov");
    expect(r.record.opcode == 1 && r.record.operands[0].mask == 0xF && r.record.operands[1].type == 2
               && r.record.operands[1].swizzle == 0xE4,
           "the record of mov r0, c0");
    r = santubeli_read(0xFFFE0200, move + 1, 3, 0);
    expect(r.number == 0 && r.next == 3, "place 0 is lawful");
    r = santubeli_read(0xFFFE0200, move, 5, 4);
    expect(r.number == 0 && r.next == 5 && r.record.opcode == 0xFFFF, "END has a record");
    expect(unread(santubeli_read(0xFFFE0200, NULL, 0, 0), SANTUBELI_RUN_OUT, 0), "an empty slice");
    expect(unread(santubeli_read(0xFFFE0200, move, 5, SIZE_MAX), SANTUBELI_RUN_OUT, 5), "a place far past the end");
    expect(unread(santubeli_read(0, move, 5, 1), SANTUBELI_VERSION, 0), "no version");
    expect(unread(santubeli_read(0xFFFE0200, move, 5, 2), SANTUBELI_BITS, 2), "a place inside an instruction: 800F0000 is a NOP with bits");
}

static void write_entries(void)
{
    uint32_t buffer[6] = {1, 2, 3, 4, 5, 6};
    const uint32_t before[6] = {1, 2, 3, 4, 5, 6};
    struct santubeli_record record = santubeli_read(0xFFFE0200, move, 5, 1).record;

    struct santubeli_written w = santubeli_write(0xFFFE0200, record, NULL, 0, buffer, 6, 4);
    expect(w.number == SANTUBELI_ROOM && w.next == 0 && memcmp(buffer, before, sizeof buffer) == 0, "two places for three tokens");
    w = santubeli_write(0xFFFE0200, record, NULL, 0, buffer, 6, SIZE_MAX);
    expect(w.number == SANTUBELI_ROOM && w.next == 0, "a place far past the end");
    w = santubeli_write(0xFFFE0200, record, NULL, 0, NULL, 0, 0);
    expect(w.number == SANTUBELI_ROOM && w.next == 0, "no buffer");
    w = santubeli_write(7, record, NULL, 0, buffer, 6, 1);
    expect(w.number == SANTUBELI_VERSION && w.next == 0, "no version to write for");
    w = santubeli_write(0xFFFE0200, record, move, 1, buffer, 6, 1);
    expect(w.number == SANTUBELI_RECORD && w.next == 0, "a body for an instruction");
    memset(&record, 0xFF, sizeof record);
    w = santubeli_write(0xFFFE0200, record, NULL, 0, buffer, 6, 1);
    expect(w.number == SANTUBELI_RECORD && memcmp(buffer, before, sizeof buffer) == 0, "a wild record");
    record = santubeli_read(0xFFFE0200, move, 5, 1).record;
    w = santubeli_write(0xFFFE0200, record, NULL, 0, buffer, 6, 1);
    expect(w.number == 0 && w.position == 0 && w.next == 4 && buffer[0] == 1 && buffer[1] == move[1] && buffer[2] == move[2]
               && buffer[3] == move[3] && buffer[4] == 5 && buffer[5] == 6,
           "mov written behind the first token, and nothing else");
}

static bool unedited_with(struct santubeli_edited e, uint32_t number, size_t position, size_t detail)
{
    return e.number == number && e.position == position && e.detail == detail && e.joined == 0 && e.length == 0;
}

static bool unedited(struct santubeli_edited e, uint32_t number, size_t position)
{
    return unedited_with(e, number, position, 0);
}

/* Document 01's stream E: if b0, else, endif. */
static const uint32_t branch[] = {0xFFFE0200, 0x01000028, 0xE0E40800, 0x0000002A, 0x0000002B, 0x0000FFFF};

static void edit_entries(void)
{
    uint32_t buffer[8];
    const uint32_t otherwise[] = {0x0000002A}, end[] = {0x0000FFFF};

    memcpy(buffer, branch, sizeof branch);
    buffer[6] = buffer[7] = 0xDEAD;
    expect(unedited(santubeli_edit(buffer, 8, 6, 2, 3, NULL, 0), SANTUBELI_PLACE, 0), "a place inside an instruction");
    expect(unedited(santubeli_edit(buffer, 8, 6, 4, 3, NULL, 0), SANTUBELI_PLACE, 0), "i behind j");
    expect(unedited(santubeli_edit(buffer, 8, 6, 0, 0, NULL, 0), SANTUBELI_PLACE, 0), "the version is no boundary");
    expect(unedited(santubeli_edit(buffer, 8, 6, 6, 6, NULL, 0), SANTUBELI_PLACE, 0), "the token count is none");
    expect(unedited(santubeli_edit(buffer, 8, 6, SIZE_MAX, SIZE_MAX, NULL, 0), SANTUBELI_PLACE, 0), "the largest places");
    expect(unedited(santubeli_edit(buffer, 8, SIZE_MAX, 1, 1, NULL, 0), SANTUBELI_LENGTH, 0), "the largest length");
    expect(unedited(santubeli_edit(NULL, 0, 0, 0, 0, NULL, 0), SANTUBELI_LENGTH, 0), "no buffer");
    expect(unedited(santubeli_edit(buffer, 6, 6, 3, 3, end, 1), SANTUBELI_ROOM, 0), "no room for one token more");
    expect(unedited(santubeli_edit(buffer, 8, 6, 3, 3, end, 1), SANTUBELI_BLOCK, 3), "END inside the IF");
    expect(unedited(santubeli_edit(buffer, 8, 6, 1, 3, NULL, 0), SANTUBELI_BLOCK, 1), "without its IF");
    expect(memcmp(buffer, branch, sizeof branch) == 0 && buffer[6] == 0xDEAD, "refusals write nothing");

    struct santubeli_edited e = santubeli_edit(buffer, 8, 6, 3, 4, otherwise, 1);
    expect(e.number == 0 && e.detail == 0 && e.joined == 1 && e.length == 6 && memcmp(buffer, branch, sizeof branch) == 0,
           "ELSE for ELSE is JOINED");
    e = santubeli_edit(buffer, 8, 6, 3, 4, NULL, 0);
    expect(e.number == 0 && e.detail == 0 && e.joined == 0 && e.length == 5, "without its ELSE: ACCEPTED");
    expect(buffer[3] == 0x0000002B && buffer[4] == 0x0000FFFF && buffer[5] == 0x0000FFFF && buffer[6] == 0xDEAD,
           "the splice, and what lies past it as before");
}

/* Document 02, Q-2: (p3) mov o1[a0.y], c2, the predicate behind the destination and its relative token. */
static const uint32_t predicated[] = {0xFFFE0300, 0x14000001, 0xE0072001, 0xB0550000, 0xBD1B1003, 0xA0E40002, 0x0000FFFF};
/* The same with the predicate last, where document 01 had it. */
static const uint32_t predicate_last[] = {0xFFFE0300, 0x14000001, 0xE0072001, 0xB0550000, 0xA0E40002, 0xBD1B1003, 0x0000FFFF};

static void predicate_entries(void)
{
    uint32_t buffer[7] = {0xFFFE0300, 0x0000FFFF};
    uint8_t bytes[sizeof predicated];

    memcpy(bytes, predicated, sizeof bytes);
    expect(accepted(santubeli_check_tokens(predicated, 7), 7, 1), "a predicate behind the destination, tokens");
    expect(accepted(santubeli_check(bytes, sizeof bytes), 7, 1), "a predicate behind the destination, bytes");
    expect(refused(santubeli_check_tokens(predicate_last, 7), SANTUBELI_REGISTER, 4), "a predicate that is last, tokens");
    memcpy(bytes, predicate_last, sizeof bytes);
    expect(refused(santubeli_check(bytes, sizeof bytes), SANTUBELI_REGISTER, 4), "a predicate that is last, bytes");

    struct santubeli_reading r = santubeli_read(0xFFFE0300, predicated, 7, 1);
    const struct santubeli_operand *operands = r.record.operands;
    expect(r.number == 0 && r.next == 6 && r.record.predicated == 1, "reading a predicated mov");
    expect(operands[0].number == 1 && operands[0].type == 6 && operands[0].mask == 7 && operands[0].relative == 1
               && operands[0].relative_type == 3 && operands[0].relative_swizzle == 0x55,
           "its destination, with the relative token's fields");
    expect(operands[1].number == 2 && operands[1].type == 2 && operands[1].swizzle == 0xE4 && operands[1].relative == 0,
           "its source, the second operand");
    expect(operands[5].number == 3 && operands[5].type == 19 && operands[5].swizzle == 0x1B && operands[5].modifier == 0xD,
           "its predicate, the sixth operand");
    expect(unread(santubeli_read(0xFFFE0300, predicate_last, 7, 1), SANTUBELI_REGISTER, 4), "reading one that is last");

    struct santubeli_written w = santubeli_write(0xFFFE0300, r.record, NULL, 0, buffer, 5, 1);
    expect(w.number == SANTUBELI_ROOM && buffer[1] == 0x0000FFFF, "a predicated mov without room");
    w = santubeli_write(0xFFFE0200, r.record, NULL, 0, buffer, 7, 1);
    expect(w.number == SANTUBELI_RECORD && buffer[1] == 0x0000FFFF, "a predicated mov in vs_2_0");
    w = santubeli_write(0xFFFE0300, r.record, NULL, 0, buffer, 7, 1);
    expect(w.number == 0 && w.next == 6 && memcmp(buffer, predicated, 6 * sizeof *buffer) == 0, "a predicated mov written back");

    memcpy(buffer, (const uint32_t[]){0xFFFE0300, 0x0000FFFF}, 8);
    expect(unedited(santubeli_edit(buffer, 7, 2, 1, 1, predicate_last + 1, 5), SANTUBELI_REGISTER, 4), "a run with the predicate last");
    const struct santubeli_edited e = santubeli_edit(buffer, 7, 2, 1, 1, predicated + 1, 5);
    expect(e.number == 0 && e.joined == 1 && e.length == 7 && memcmp(buffer, predicated, sizeof buffer) == 0,
           "a run with the predicate behind the destination is JOINED");
}

/* Document 02, Q-4: tex t0, +mov_x2_sat r1, -t0, in ps_1_1, co-issue and shift scale at once. */
static const uint32_t coissued[] = {0xFFFF0101, 0x00000042, 0xB00F0000, 0x40000001, 0x811F0001, 0xB1E40000, 0x0000FFFF};
/* add oPos, c7[a0.x], v0 in vs_1_1: bit 13, and no token behind it. */
static const uint32_t indexed[] = {0xFFFE0101, 0x00000002, 0xC00F0000, 0xA0E42007, 0x90E40000, 0x0000FFFF};
/* phase, nop, in ps_1_4, and a second phase. */
static const uint32_t phased[] = {0xFFFF0104, 0x0000FFFD, 0x00000000, 0x0000FFFF};
static const uint32_t phased_twice[] = {0xFFFF0104, 0x0000FFFD, 0x4000FFFD, 0x0000FFFF};

static void check_first_versions(void)
{
    uint8_t bytes[sizeof coissued];

    memcpy(bytes, coissued, sizeof bytes);
    expect(accepted(santubeli_check_tokens(coissued, 7), 7, 2), "co-issue and a shift scale, tokens");
    expect(accepted(santubeli_check(bytes, sizeof coissued), 7, 2), "co-issue and a shift scale, bytes");
    expect(refused(santubeli_check_tokens(coissued, 5), SANTUBELI_RUN_OUT, 3), "an operand cut away, tokens");
    expect(refused(santubeli_check(bytes, 20), SANTUBELI_RUN_OUT, 3), "an operand cut away, bytes");
    expect(accepted(santubeli_check_tokens(indexed, 6), 6, 1), "bit 13 in vs_1_1");
    expect(accepted(santubeli_check_tokens(phased, 4), 4, 2), "PHASE is counted");
    expect(refused(santubeli_check_tokens(phased_twice, 4), SANTUBELI_BLOCK, 2), "a second PHASE, tokens");
    memcpy(bytes, phased_twice, sizeof phased_twice);
    expect(refused(santubeli_check(bytes, sizeof phased_twice), SANTUBELI_BLOCK, 2), "a second PHASE, bytes");
}

static void first_version_records(void)
{
    uint32_t buffer[6] = {1, 2, 3, 4, 5, 6};

    struct santubeli_reading r = santubeli_read(0xFFFF0101, coissued, 7, 3);
    expect(r.number == 0 && r.next == 6 && r.record.coissue == 1 && r.record.predicated == 0, "reading co-issue");
    expect(r.record.operands[0].shift == 1 && r.record.operands[0].result == 1 && r.record.operands[0].modifier == 0
               && r.record.operands[1].modifier == 1 && r.record.operands[1].shift == 0,
           "a shift scale and a modifier");
    expect(unread(santubeli_read(0xFFFF0101, coissued, 5, 3), SANTUBELI_RUN_OUT, 3), "reading an operand cut away");
    expect(unread(santubeli_read(0xFFFF0200, coissued, 7, 3), SANTUBELI_BITS, 3), "reading co-issue in ps_2_0");
    struct santubeli_written w = santubeli_write(0xFFFF0200, r.record, NULL, 0, buffer, 6, 1);
    expect(w.number == SANTUBELI_RECORD && buffer[1] == 2, "writing co-issue in ps_2_0");
    w = santubeli_write(0xFFFF0101, r.record, NULL, 0, buffer, 6, 1);
    expect(w.number == 0 && w.next == 4 && memcmp(buffer + 1, coissued + 3, 12) == 0 && buffer[0] == 1 && buffer[4] == 5,
           "writing co-issue and a shift scale back");

    r = santubeli_read(0xFFFE0101, indexed, 6, 1);
    expect(r.number == 0 && r.next == 5 && r.record.operands[1].relative == 1 && r.record.operands[1].relative_number == 0
               && r.record.operands[1].relative_type == 0 && r.record.operands[1].relative_swizzle == 0,
           "reading bit 13 in vs_1_1");
    w = santubeli_write(0xFFFE0101, r.record, NULL, 0, buffer, 4, 0);
    expect(w.number == 0 && w.next == 4 && memcmp(buffer, indexed + 1, 16) == 0, "writing bit 13 back, and no token behind it");
    r.record.operands[1].relative_type = 3;
    w = santubeli_write(0xFFFE0101, r.record, NULL, 0, buffer, 6, 0);
    expect(w.number == SANTUBELI_RECORD && memcmp(buffer, indexed + 1, 16) == 0, "writing a relative token in vs_1_1");
}

static void edit_first_versions(void)
{
    uint32_t buffer[4];
    const uint32_t coissued_phase[] = {0x4000FFFD};

    memcpy(buffer, phased, sizeof phased);
    expect(unedited(santubeli_edit(buffer, 4, 4, 2, 3, phased + 1, 1), SANTUBELI_BLOCK, 2), "an edit with a second PHASE");
    struct santubeli_edited e = santubeli_edit(buffer, 4, 4, 1, 2, coissued_phase, 1);
    expect(e.number == 0 && e.joined == 1 && e.length == 4 && buffer[1] == 0x4000FFFD, "PHASE for PHASE is JOINED");
    e = santubeli_edit(buffer, 4, 4, 1, 2, NULL, 0);
    expect(e.number == 0 && e.joined == 0 && e.length == 3 && buffer[1] == 0 && buffer[2] == 0x0000FFFF,
           "without its PHASE: ACCEPTED, although no block is open");
}

static bool noted(struct santubeli_noted n, uint32_t notes, size_t at, size_t comments, size_t next)
{
    return n.number == 0 && n.position == 0 && n.detail == 0 && n.notes == notes && n.at == at && n.comments == comments
        && n.next == next;
}

static bool unnoted_with(struct santubeli_noted n, uint32_t number, size_t position, size_t detail)
{
    return n.number == number && n.position == position && n.detail == detail && n.notes == 0 && n.at == 0
        && n.comments == 0 && n.next == 0;
}

static bool unnoted(struct santubeli_noted n, uint32_t number, size_t position)
{
    return unnoted_with(n, number, position, 0);
}

/* The shapes of docs/DRIVERS.md, each in its shortest stream, and the search from any place. */
static void note_entries(void)
{
    const uint32_t empty[] = {0xFFFE0200, 0x0000FFFE, 0x0000FFFE, 0x0000FFFF};
    const uint32_t thrice[] = {0xFFFF0101, 0x0000FFFE, 0x0000FFFE, 0x0000FFFE, 0x00000000, 0x0000FFFF};
    const uint32_t further[] = {0xFFFF0300, 0x00000000, 0x0001FFFE, 0x0000FFFF, 0x0000FFFE, 0x0001FFFE, 0x0000FFFE, 0x0000FFFF};
    const uint32_t sgn[] = {0xFFFE0300, 0x04000022, 0x800F0000, 0x80E40000, 0x80E40000, 0x80E40000, 0x0000FFFF};
    const uint32_t predicated[] = {0xFFFE0300, 0x13000001, 0x800F0000, 0xB0E41000, 0xA0E40000, 0x0000FFFF};
    const uint32_t texkill[] = {0xFFFF0300, 0x12000041, 0x800F0000, 0xB0E41000, 0x0000FFFF};
    const uint32_t relative[] = {0xFFFE0300, 0x03000001, 0xE00F2000, 0xB0000000, 0xA0E40000, 0x0000FFFF};
    const uint32_t source[] = {0xFFFE0300, 0x03000001, 0x800F0000, 0xA0E42000, 0xB0000000, 0x0000FFFF};
    const uint32_t phase[] = {0xFFFF0104, 0x4000FFFD, 0x0000FFFF};
    const uint32_t nop[] = {0xFFFE0300, 0x00000000, 0x0000FFFF};

    expect(noted(santubeli_note(move[0], move, 5, 1), 0, 4, 4, 5), "mov has no note");
    expect(noted(santubeli_note(empty[0], empty, 4, 1), SANTUBELI_WINED3D_COMMENTS | SANTUBELI_NINE_COMMENTS, 3, 1, 4), "two empty comments");
    expect(noted(santubeli_note(empty[0], empty, 4, 2), SANTUBELI_NINE_COMMENTS, 3, 2, 4), "the second one alone");
    expect(noted(santubeli_note(empty[0], empty, 4, 3), 0, 3, 3, 4), "END alone");
    expect(unnoted(santubeli_note(empty[0], empty, 4, 4), SANTUBELI_RUN_OUT, 4), "behind END");
    expect(noted(santubeli_note(thrice[0], thrice, 6, 1), SANTUBELI_WINED3D_COMMENTS, 3, 1, 4), "three empty comments");
    expect(noted(santubeli_note(thrice[0], thrice, 6, 4), 0, 5, 5, 6), "behind them");
    expect(noted(santubeli_note(further[0], further, 8, 1), SANTUBELI_WINED3D_COMMENTS | SANTUBELI_NINE_COMMENTS, 7, 2, 8), "comments of every kind");
    expect(noted(santubeli_note(sgn[0], sgn, 7, 1), SANTUBELI_WINED3D_SGN, 1, 1, 6), "SGN in vs_3_0");
    expect(noted(santubeli_note(0xFFFE0200, sgn, 7, 1), 0, 6, 6, 7), "SGN in vs_2_0");
    expect(noted(santubeli_note(predicated[0], predicated, 6, 1), SANTUBELI_MOJOSHADER_PREDICATE, 1, 1, 5), "a predicate");
    expect(noted(santubeli_note(texkill[0], texkill, 5, 1), 0, 4, 4, 5), "a predicated TEXKILL");
    expect(noted(santubeli_note(relative[0], relative, 6, 1), SANTUBELI_MOJOSHADER_DESTINATION, 1, 1, 5), "a relative destination");
    expect(noted(santubeli_note(source[0], source, 6, 1), 0, 5, 5, 6), "a relative source");
    expect(noted(santubeli_note(phase[0], phase, 3, 1), SANTUBELI_MOJOSHADER_PHASE, 1, 1, 2), "a co-issued PHASE");
    expect(noted(santubeli_note(nop[0], nop, 3, 1), 0, 2, 2, 3), "a NOP before END, whose bit 13 is no destination's");
    expect(unnoted(santubeli_note(move[0], NULL, 0, 0), SANTUBELI_RUN_OUT, 0), "no tokens, null");
    expect(unnoted(santubeli_note(move[0], move, 5, SIZE_MAX), SANTUBELI_RUN_OUT, 5), "a place far past the end");
    expect(unnoted(santubeli_note(0, move, 5, 1), SANTUBELI_VERSION, 0), "no version");
    expect(unnoted(santubeli_note(move[0], move, 4, 1), SANTUBELI_RUN_OUT, 4), "no END");
    expect(unnoted(santubeli_note(move[0], move, 5, 2), SANTUBELI_BITS, 2), "a place inside an instruction");
}

/* Document 02, Q-3: the bit through every entry, wherever the instruction stands. */
struct fault {
    const char *what;
    uint32_t version;
    uint32_t instruction[5];
    size_t count;
    uint32_t number;
    size_t place, bit; /* the place counts from the instruction */
};

static const struct fault faults[] = {
    {"a reserved bit", 0xFFFE0200, {0x02000001, 0x800F4000, 0xA0E40000}, 3, SANTUBELI_RESERVED, 1, 14},
    {"bit 31 is missing", 0xFFFE0200, {0x02000001, 0x000F4000, 0xA0E40000}, 3, SANTUBELI_RESERVED, 1, 31},
    {"a usage that is none", 0xFFFF0300, {0x0200001F, 0x8000000E, 0x900F0000}, 3, SANTUBELI_RESERVED, 1, 0},
    {"a sampler without a texture type", 0xFFFF0200, {0x0200001F, 0x80000000, 0xA00F0800}, 3, SANTUBELI_RESERVED, 1, 27},
    {"a face with a mask", 0xFFFF0300, {0x0200001F, 0x80000000, 0x91073001}, 3, SANTUBELI_RESERVED, 2, 16},
    {"reserved before relative", 0xFFFF0200, {0x02000001, 0x800F0800, 0xA7E4E000}, 3, SANTUBELI_RESERVED, 2, 14},
    {"a bit of the result in vs_1_1", 0xFFFE0101, {0x00000001, 0x804F0000, 0xA0E40000}, 3, SANTUBELI_RESERVED, 1, 22},
    {"a modifier", 0xFFFF0200, {0x02000001, 0x800F0800, 0xA7E40000}, 3, SANTUBELI_MODIFIER, 2, 24},
    {"a predicate's modifier", 0xFFFE0300, {0x13000001, 0x800F0000, 0xB1E41000, 0xA0E40000}, 4, SANTUBELI_MODIFIER, 2, 24},
    {"a relative token's modifier", 0xFFFE0200, {0x03000001, 0x800F0000, 0xA0E42000, 0xB2000000}, 4, SANTUBELI_MODIFIER, 3, 24},
    {"a modifier of ps_1_4 in ps_1_3", 0xFFFF0103, {0x00000001, 0x800F0000, 0x87E40001}, 3, SANTUBELI_MODIFIER, 2, 24},
    {"relative before the modifier", 0xFFFF0200, {0x02000001, 0x800F0800, 0xA7E42000}, 3, SANTUBELI_RELATIVE, 2, 13},
    {"a relative destination", 0xFFFE0200, {0x03000001, 0x800F2000, 0xB0000000, 0xA0E40000}, 4, SANTUBELI_RELATIVE, 1, 13},
    {"a relative source in ps_1_1", 0xFFFF0101, {0x00000001, 0x800F0000, 0xA0E42000}, 3, SANTUBELI_RELATIVE, 2, 13},
};

static void fault_through_entries(const struct fault *fault)
{
    /* version, NOP, the instruction, END */
    uint32_t tokens[8] = {fault->version, 0}, buffer[8] = {fault->version, 0, 0x0000FFFF};
    const uint32_t before[8] = {fault->version, 0, 0x0000FFFF};
    uint8_t bytes[sizeof tokens];
    const size_t count = fault->count + 3, at = 2 + fault->place;

    memcpy(tokens + 2, fault->instruction, fault->count * sizeof *tokens);
    tokens[count - 1] = 0x0000FFFF;
    memcpy(bytes, tokens, sizeof bytes);
    expect(refused_with(santubeli_check_tokens(tokens, count), fault->number, at, fault->bit), fault->what);
    expect(refused_with(santubeli_check(bytes, 4 * count), fault->number, at, fault->bit), fault->what);
    expect(unread_with(santubeli_read(fault->version, tokens, count, 2), fault->number, at, fault->bit), fault->what);
    expect(unread_with(santubeli_read(fault->version, fault->instruction, fault->count, 0), fault->number, fault->place, fault->bit),
           fault->what);
    expect(unnoted_with(santubeli_note(fault->version, tokens, count, 1), fault->number, at, fault->bit), fault->what);
    expect(unedited_with(santubeli_edit(buffer, 8, 3, 2, 2, fault->instruction, fault->count), fault->number, at, fault->bit),
           fault->what);
    expect(unedited_with(santubeli_edit(buffer, 8, 3, 1, 2, fault->instruction, fault->count), fault->number, at - 1, fault->bit),
           fault->what);
    expect(memcmp(buffer, before, sizeof buffer) == 0, "a refusal with a bit writes nothing");
}

static void fault_entries(void)
{
    for (size_t k = 0; k < sizeof faults / sizeof *faults; k++)
        fault_through_entries(&faults[k]);

    /* the layout before the type, and no detail of the type */
    const uint32_t typed[] = {0xFFFE0200, 0x02000001, 0x800F0000, 0xBDE41000, 0x0000FFFF};
    expect(refused(santubeli_check_tokens(typed, 5), SANTUBELI_REGISTER, 3), "a type has no detail");
    /* of a refused stream, walked again without its ELSE: the fault where it stands now */
    uint32_t buffer[] = {0xFFFE0200, 0x01000028, 0xE0E40800, 0x0000002A, 0x02000001, 0x800F4000, 0xA0E40000, 0x0000002B, 0x0000FFFF};
    expect(unedited_with(santubeli_edit(buffer, 9, 9, 3, 4, NULL, 0), SANTUBELI_RESERVED, 4, 14), "a fault behind the edit");
}

int main(void)
{
    check_entries();
    read_entries();
    note_entries();
    fault_entries();
    write_entries();
    edit_entries();
    predicate_entries();
    check_first_versions();
    first_version_records();
    edit_first_versions();
    printf("%u passed, %u failed\n", passed, failed);
    return failed != 0;
}
