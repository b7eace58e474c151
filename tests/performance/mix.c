/*
 * Streams with the statistics of real shaders, as compilers write them: declarations and constants in front, then arithmetic with one, two or three
 * sources, of which three in a hundred are other constants; in pixel shaders nine in a hundred are texture reads. Thirteen sources in a hundred are
 * negated, half of them are temporaries and a third constants; a destination is seldom saturated, and in pixel shaders from 2_0 on of partial precision
 * once in five times. No predicates, no comparisons, no blocks, and in vertex shaders two relative constants in a hundred sources.
 *
 * The weights are told roughly, from what shader disassemblies show; they decide no verdict. Every number is of the paper.
 */
#include "mix.h"

enum { VS_2_0, VS_3_0, PS_2_0, PS_3_0, VS_1_1, PS_1_4 = 8 };
enum { TEMPORARY, INPUT, CONSTANT, TEXTURE, POSITION_OUT, COLOUR_OUT = 8, SAMPLER = 10 };
enum { MOV = 1, ADD, SUB, MAD, MUL, RCP, RSQ, DP3, DP4, MIN, MAX, LRP = 18, FRC = 19, DCL = 31, POW = 32, NRM = 36, TEX = 66, DEF = 81, END = 0xFFFF };

static bool is_pixel(unsigned version)
{
    return version == PS_2_0 || version == PS_3_0 || version > VS_1_1;
}

static bool has_sizes(unsigned version)
{
    return version <= PS_3_0;
}

static uint32_t bits_of(uint32_t type, uint32_t number)
{
    return 0x80000000u | (type & 7) << 28 | (type >> 3) << 11 | number;
}

static uint32_t first_token(unsigned version, uint32_t opcode, uint32_t operands)
{
    return has_sizes(version) ? opcode | operands << 24 : opcode;
}

static uint32_t a_source(struct generate_source *source, unsigned version)
{
    const size_t kind = generate_below(source, 100);
    uint32_t token;
    if (kind < 50)
        token = bits_of(TEMPORARY, (uint32_t)generate_below(source, 2));
    else if (kind < 83 || version == VS_1_1)
        token = bits_of(CONSTANT, (uint32_t)generate_below(source, 8));
    else
        token = bits_of(version == PS_2_0 ? TEXTURE : INPUT, (uint32_t)generate_below(source, 2));
    token |= generate_chance(source, 11, 20) ? 0xE40000u : (uint32_t)generate_below(source, 256) << 16;
    return generate_chance(source, 13, 100) ? token | 0x1000000u : token;
}

static uint32_t a_destination(struct generate_source *source, unsigned version)
{
    uint32_t token = bits_of(TEMPORARY, (uint32_t)generate_below(source, 2));
    token |= (generate_chance(source, 3, 5) ? 15u : 1u + (uint32_t)generate_below(source, 15)) << 16;
    if (is_pixel(version) && generate_chance(source, 6, 100))
        token |= 0x100000u;
    if (is_pixel(version) && has_sizes(version) && generate_chance(source, 1, 5))
        token |= 0x200000u;
    return token;
}

/* An instruction with so many sources. Gives the place behind it. */
static size_t arithmetic(struct generate_source *source, unsigned version, uint32_t *tokens, size_t at)
{
    static const struct { uint32_t weight, opcode, sources, everywhere; } table[] = {
        { 17, MOV, 1, 1 }, { 15, MUL, 2, 1 }, { 20, MAD, 3, 1 }, { 10, ADD, 2, 1 }, { 9, DP3, 2, 1 }, { 8, DP4, 2, 0 }, { 3, RSQ, 1, 0 }, { 3, RCP, 1, 0 },
        { 3, MAX, 2, 0 }, { 2, MIN, 2, 0 }, { 3, LRP, 3, 0 }, { 2, FRC, 1, 0 }, { 1, POW, 2, 0 }, { 1, NRM, 1, 0 }, { 3, SUB, 2, 1 },
    };
    size_t left = generate_below(source, 100), row = 0;
    while (left >= table[row].weight)
        left -= table[row++].weight;
    if (!has_sizes(version) && !table[row].everywhere)
        row = 0;
    const uint32_t sources = table[row].sources;
    const bool relative = version <= VS_3_0 && generate_chance(source, 1, 25);
    tokens[at++] = first_token(version, table[row].opcode, 1 + sources + relative);
    tokens[at++] = a_destination(source, version);
    for (uint32_t k = 0; k < sources; k++) {
        if (relative && k == 0) {
            tokens[at++] = bits_of(CONSTANT, (uint32_t)generate_below(source, 90)) | 0xE42000u;
            tokens[at++] = bits_of(3, 0);
        } else {
            tokens[at++] = a_source(source, version);
        }
    }
    return at;
}

static size_t constant(struct generate_source *source, unsigned version, uint32_t *tokens, size_t at)
{
    tokens[at++] = first_token(version, DEF, 5);
    tokens[at++] = bits_of(CONSTANT, (uint32_t)generate_below(source, 8)) | 0xF0000u;
    for (int k = 0; k < 4; k++)
        tokens[at++] = generate_u32(source);
    return at;
}

static size_t texture(struct generate_source *source, unsigned version, uint32_t *tokens, size_t at)
{
    if (!has_sizes(version)) {
        tokens[at++] = TEX;
        tokens[at++] = bits_of(version == PS_1_4 ? TEMPORARY : TEXTURE, (uint32_t)generate_below(source, 4)) | 0xF0000u;
        if (version == PS_1_4)
            tokens[at++] = bits_of(TEXTURE, (uint32_t)generate_below(source, 4)) | 0xE40000u;
        return at;
    }
    tokens[at++] = first_token(version, TEX, 3);
    tokens[at++] = a_destination(source, version);
    tokens[at++] = bits_of(version == PS_2_0 ? TEXTURE : INPUT, (uint32_t)generate_below(source, 4)) | 0xE40000u;
    tokens[at++] = bits_of(SAMPLER, (uint32_t)generate_below(source, 4)) | 0xE40000u;
    return at;
}

static size_t declarations(unsigned version, uint32_t *tokens, size_t at)
{
    for (uint32_t k = 0; k < 4; k++) {
        tokens[at++] = first_token(version, DCL, 2);
        tokens[at++] = version == PS_2_0 ? 0x80000000u : 0x80000005u | k << 16;
        tokens[at++] = bits_of(version == PS_2_0 ? TEXTURE : INPUT, k) | 0xF0000u;
    }
    for (uint32_t k = 0; is_pixel(version) && k < 4; k++) {
        tokens[at++] = first_token(version, DCL, 2);
        tokens[at++] = 0x90000000u;
        tokens[at++] = bits_of(SAMPLER, k) | 0xF0000u;
    }
    return at;
}

void mix_stream(struct generate_source *source, unsigned version, uint32_t *tokens, size_t length)
{
    size_t at = 0;
    tokens[at++] = generate_version(version);
    if (has_sizes(version) || version == VS_1_1)
        at = declarations(version, tokens, at);
    while (at + 8 < length) {
        const size_t kind = generate_below(source, 100);
        if (kind < 3)
            at = constant(source, version, tokens, at);
        else if (is_pixel(version) && kind < 12)
            at = texture(source, version, tokens, at);
        else
            at = arithmetic(source, version, tokens, at);
    }
    while (at + 1 < length)
        tokens[at++] = 0;
    tokens[at] = END;
}

void deep_stream(uint32_t *tokens, size_t length)
{
    enum { LOOP = 0x200001B, BREAK = 44, ENDLOOP = 29, DEEPEST = 24 };
    size_t at = 0;
    tokens[at++] = generate_version(VS_3_0);
    for (int k = 0; k < DEEPEST; k++) {
        tokens[at++] = LOOP;
        tokens[at++] = bits_of(15, 0) | 0xE40000u;
        tokens[at++] = bits_of(7, 0) | 0xE40000u;
    }
    while (at + DEEPEST + 1 < length)
        tokens[at++] = BREAK;
    for (int k = 0; k < DEEPEST; k++)
        tokens[at++] = ENDLOOP;
    tokens[at] = END;
}
