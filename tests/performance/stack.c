/*
 * How much stack a call takes: each runs on a stack of its own that was painted before, and the paint that is gone is counted.
 * The stream nests 24 blocks, as deep as is lawful.
 */
#include "../../include/santubeli.h"
#include "../../second/second.h"

#include <stdint.h>
#include <stdio.h>
#include <string.h>
#include <ucontext.h>

enum { STACK = 1 << 18, PAINT = 0xA5, DEEPEST = 24 };

static unsigned char painted[STACK];
static uint32_t tokens[3 * DEEPEST + 2];
static uint32_t buffer[3 * DEEPEST + 2];
static uint8_t bytes[4 * (3 * DEEPEST + 2)];
static size_t length;
static struct santubeli_reading reading;
static uint32_t number;
static ucontext_t here, there;

static void nothing(void)
{
    number = 0;
}

static void check_tokens(void)
{
    number = santubeli_check_tokens(tokens, length).number;
}

static void check_bytes(void)
{
    number = santubeli_check(bytes, 4 * length).number;
}

static void read_one(void)
{
    reading = santubeli_read(tokens[0], tokens, length, 1);
    number = reading.number;
}

static void write_one(void)
{
    number = santubeli_write(tokens[0], reading.record, NULL, 0, buffer, length, 1).number;
}

static void edit_one(void)
{
    number = santubeli_edit(buffer, length, length, 1, 3, tokens + 1, 2).number;
}

static void second_tokens(void)
{
    number = second_check(tokens, length).number;
}

static size_t taken_by(void (*call)(void))
{
    size_t untouched = 0;
    memset(painted, PAINT, sizeof painted);
    getcontext(&there);
    there.uc_stack.ss_sp = painted;
    there.uc_stack.ss_size = sizeof painted;
    there.uc_link = &here;
    makecontext(&there, call, 0);
    swapcontext(&here, &there);
    while (untouched < sizeof painted && painted[untouched] == PAINT)
        untouched++;
    return sizeof painted - untouched;
}

static void report(const char *what, void (*call)(void))
{
    const size_t all = taken_by(call);
    printf("%s%zu%s\n", what, all - taken_by(nothing), number == 0 ? "" : " (refused)");
}

int main(void)
{
    tokens[length++] = 0xFFFE0200;
    for (int k = 0; k < DEEPEST; k++) {
        tokens[length++] = 0x01000028;
        tokens[length++] = 0xE0E40800;
    }
    for (int k = 0; k < DEEPEST; k++)
        tokens[length++] = 0x0000002B;
    tokens[length++] = 0x0000FFFF;
    memcpy(buffer, tokens, sizeof tokens);
    for (size_t k = 0; k < length; k++)
        for (int b = 0; b < 4; b++)
            bytes[4 * k + (size_t)b] = (uint8_t)(tokens[k] >> (8 * b));
    report("check of tokens ", check_tokens);
    report("check of bytes ", check_bytes);
    report("read ", read_one);
    report("write ", write_one);
    report("edit ", edit_one);
    report("second program, check of tokens ", second_tokens);
    return 0;
}
