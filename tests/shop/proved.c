/*
 * The proved library behind the second program's interface, so that tests written for the one run on the other.
 */
#include "../../include/santubeli.h"
#include "../../second/second.h"

#include <string.h>

static struct second_verdict as_verdict(struct santubeli_verdict v)
{
    return (struct second_verdict){v.number, (uint32_t)v.position, (uint32_t)v.detail, (uint32_t)v.tokens,
                                   (uint32_t)v.instructions};
}

struct second_verdict second_check(const uint32_t *tokens, size_t count)
{
    return as_verdict(santubeli_check_tokens(tokens, count));
}

struct second_verdict second_check_bytes(const uint8_t *bytes, size_t length)
{
    return as_verdict(santubeli_check(bytes, length));
}

struct second_read second_read(uint32_t version, const uint32_t *tokens, size_t count, size_t at)
{
    const struct santubeli_reading given = santubeli_read(version, tokens, count, at);
    struct second_read read = {given.number, (uint32_t)given.position, (uint32_t)given.detail, given.next, {0}};
    memcpy(&read.record, &given.record, sizeof read.record);
    return read;
}

struct second_written second_write(uint32_t version, const struct second_record *record, const uint32_t *body,
                                   size_t body_length, uint32_t *buffer, size_t buffer_length, size_t at)
{
    struct santubeli_record same;
    memcpy(&same, record, sizeof same);
    const struct santubeli_written given = santubeli_write(version, same, body, body_length, buffer, buffer_length, at);
    return (struct second_written){given.number, (uint32_t)given.position, given.next};
}

struct second_edited second_edit(uint32_t *buffer, size_t buffer_length, size_t n, size_t i, size_t j, const uint32_t *run,
                                 size_t m)
{
    const struct santubeli_edited given = santubeli_edit(buffer, buffer_length, n, i, j, run, m);
    return (struct second_edited){given.number, (uint32_t)given.position, (uint32_t)given.detail, given.joined, given.length};
}
