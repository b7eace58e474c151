/* second check [FILE...]: judges each file, or standard input. */
#include "second.h"

#include <inttypes.h>
#include <stdio.h>
#include <string.h>

enum { MAX_BYTES = 4 * SECOND_MAX_TOKENS };

enum status { ALL_ACCEPTED = 0, SOME_REFUSED = 1, FAILED = 2 };

/* One byte more than a stream can have is enough to know that it is too long. */
static enum status check(FILE *file, const char *name)
{
    uint8_t bytes[MAX_BYTES + 1];
    const size_t length = fread(bytes, 1, sizeof bytes, file);

    if (ferror(file)) {
        fprintf(stderr, "second: cannot read %s\n", name ? name : "standard input");
        return FAILED;
    }

    const struct second_verdict verdict = second_check_bytes(bytes, length);
    if (name)
        printf("%s: ", name);
    if (verdict.number == SECOND_YES)
        printf("accept tokens %" PRIu32 " instructions %" PRIu32 "\n",
               verdict.tokens, verdict.instructions);
    else if (verdict.number >= SECOND_RESERVED && verdict.number <= SECOND_RELATIVE)
        printf("refuse %" PRIu32 " at %" PRIu32 " bit %" PRIu32 "\n",
               verdict.number, verdict.position, verdict.detail);
    else
        printf("refuse %" PRIu32 " at %" PRIu32 "\n", verdict.number, verdict.position);
    return verdict.number == SECOND_YES ? ALL_ACCEPTED : SOME_REFUSED;
}

int main(int argc, char **argv)
{
    enum status worst = ALL_ACCEPTED;

    if (argc < 2 || strcmp(argv[1], "check") != 0) {
        fputs("usage: second check [FILE...]\n", stderr);
        return FAILED;
    }
    if (argc == 2)
        return check(stdin, NULL);

    for (int k = 2; k < argc; k++) {
        enum status status = FAILED;
        FILE *const file = fopen(argv[k], "rb");
        if (file == NULL) {
            fprintf(stderr, "second: cannot open %s\n", argv[k]);
        } else {
            status = check(file, argv[k]);
            fclose(file);
        }
        if (status > worst)
            worst = status;
    }
    return worst;
}
