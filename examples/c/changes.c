/*
 * Tells what differs between two fonts, of any kinds:
 *   target/changes examples/fonts/small.psf2 examples/fonts/letters.psf1
 * Build, in the repository's folder after `tools/built lavandol` and `mkdir -p target`:
 *   gcc -O2 -Wall -Wextra -Iinclude -o target/changes examples/c/changes.c crates/lavandol/out/liblavandol.a
 * A line for each difference, and one for their count.
 */
#include "shared.h"

static uint8_t other[sizeof file];
static uint32_t pairs[2 * 8192]; /* no two fonts have more */

static void tell(uint32_t kind, uint32_t glyph) {
    static const char *const words[] = {
        [LAV_ONLY_IN_FIRST] = "only in the first", [LAV_ONLY_IN_SECOND] = "only in the second", [LAV_METRICS_DIFFER] = "metrics differ",
        [LAV_PIXELS_DIFFER] = "pixels differ", [LAV_ITEMS_DIFFER] = "items differ",
    };
    if (kind == LAV_TABLE_DIFFERS) {
        puts("only one has a table");
    } else {
        printf("glyph %" PRIu32 ": %s\n", glyph, words[kind]);
    }
}

int main(int argc, char **argv) {
    size_t length, other_length;
    if (argc != 3) {
        fprintf(stderr, "usage: changes FONT FONT\n");
        return 2;
    }
    if (!read_file(file, argv[1], &length)) {
        perror(argv[1]);
        return 2;
    }
    if (!read_file(other, argv[2], &other_length)) {
        perror(argv[2]);
        return 2;
    }

    lav_differences_answer found = lav_differences(file, length, other, other_length, pairs, sizeof pairs / sizeof *pairs);
    if (found.refusal.number) return refused(argv[found.font], found.refusal);
    for (size_t i = 0; i < found.count; i++) tell(pairs[2 * i], pairs[2 * i + 1]);
    printf("%zu differences\n", found.count);
    return 0;
}
