/* Streams that have the statistics of real shaders: see mix.c. */
#ifndef MIX_H
#define MIX_H

#include "../generator/generate.h"

/* A lawful stream of exactly `length` tokens, at least 64, in a version by the generator's number. */
void mix_stream(struct generate_source *source, unsigned version, uint32_t *tokens, size_t length);

/* 24 loops in one another, and nothing but BREAKs in the innermost, in vs_3_0. */
void deep_stream(uint32_t *tokens, size_t length);

#endif
