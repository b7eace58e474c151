/*
 * The second program on what the generator calls lawful, in every version. Their tables are typed apart, so that a cell
 * which is wrong in one of them shows here. A lawful stream is accepted with the count that the generator states, its
 * instructions are read one after the other up to END and written back as they were, and an edit of an accepted stream
 * answers as a check of the whole edited stream.
 *
 *   generated [SEED [ROUNDS]]
 */
#include "../../second/second.h"
#include "../generator/generate.h"

#include <stdbool.h>
#include <stdio.h>
#include <stdlib.h>
#include <string.h>

enum { SHOWN = 20 };

static unsigned long passed, failed;

static void say(bool right, unsigned version, const char *what, size_t which)
{
    if (right) {
        passed++;
        return;
    }
    failed++;
    if (failed <= SHOWN)
        printf("%08X: %s %zu\n", (unsigned)generate_version(version), what, which);
}

/* One instruction or comment, written again from its record. */
static bool written_back(const uint32_t *tokens, size_t at, const struct second_read *read)
{
    static uint32_t back[GENERATE_ROOM];
    const size_t length = (size_t)read->next - at;
    const size_t body = read->record.length;
    const struct second_written written =
        second_write(tokens[0], &read->record, body > 0 ? tokens + at + 1 : NULL, body, back, length, 0);

    return written.number == 0 && written.next == length && memcmp(back, tokens + at, length * sizeof *back) == 0;
}

static void read_and_write(unsigned version, const uint32_t *tokens, size_t length)
{
    size_t at = 1;

    while (at < length) {
        const struct second_read read = second_read(tokens[0], tokens, length, at);
        say(read.number == 0 && read.next > at && read.next <= length, version, "not read at", at);
        if (read.number != 0)
            return;
        say(written_back(tokens, at, &read), version, "not written back at", at);
        say((read.record.opcode == SECOND_END) == (read.next == length), version, "END is not last at", at);
        at = (size_t)read.next;
    }
}

static void accept(struct generate_source *source, unsigned version, size_t maximum)
{
    static uint32_t tokens[GENERATE_ROOM];
    const size_t length = generate_length(source, maximum);
    const uint32_t instructions = generate_valid(source, version, tokens, length);
    const struct second_verdict verdict = second_check(tokens, length);

    say(verdict.number == 0 && verdict.detail == 0 && verdict.tokens == length && verdict.instructions == instructions,
        version, "not accepted at", verdict.position);
    read_and_write(version, tokens, length);
}

static void edit(struct generate_source *source, unsigned version)
{
    static struct generate_edit edit;
    static uint32_t splice[GENERATE_ROOM];

    generate_edit(source, version, 120, &edit);
    if (edit.m > GENERATE_ROOM || edit.n > edit.buffer_length || second_check(edit.buffer, edit.n).number != 0)
        return;
    const bool ordered = edit.i <= edit.j && edit.j <= edit.n;
    const size_t length = ordered ? edit.n - (edit.j - edit.i) + edit.m : 0;
    if (!ordered || length > GENERATE_ROOM)
        return;
    memcpy(splice, edit.buffer, edit.i * sizeof *splice);
    memcpy(splice + edit.i, edit.run, edit.m * sizeof *splice);
    memcpy(splice + edit.i + edit.m, edit.buffer + edit.j, (edit.n - edit.j) * sizeof *splice);
    const struct second_edited edited =
        second_edit(edit.buffer, edit.buffer_length, edit.n, edit.i, edit.j, edit.run, edit.m);
    if (edited.number == SECOND_PLACE || edited.number == SECOND_ROOM)
        return;
    const struct second_verdict fresh = second_check(splice, length);
    say(edited.number == fresh.number && edited.position == fresh.position && edited.detail == fresh.detail
            && (edited.number != 0 || (edited.length == length && memcmp(edit.buffer, splice, length * sizeof *splice) == 0)),
        version, "an edit is no check at", edit.i);
}

int main(int argc, char **argv)
{
    const unsigned rounds = argc > 2 ? (unsigned)strtoul(argv[2], NULL, 0) : 1000;
    struct generate_source source = generate_seed(argc > 1 ? strtoull(argv[1], NULL, 0) : 1);

    for (unsigned version = 0; version < GENERATE_VERSIONS; version++)
        for (unsigned round = 0; round < rounds; round++) {
            accept(&source, version, round % 64 == 0 ? GENERATE_MAX : 400);
            edit(&source, version);
        }
    printf("%lu passed, %lu failed\n", passed, failed);
    return failed != 0;
}
