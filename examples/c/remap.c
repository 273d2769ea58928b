/*
 * Adds a letter to a glyph of a PSF2 font, or drops it, and writes the font anew:
 *   target/remap examples/fonts/small.psf2 add 1 212B target/more.psf2      (glyph, and the letter's code point, hexadecimal)
 * Build, in the repository's folder after `tools/built lavandol` and `mkdir -p target`:
 *   gcc -O2 -Wall -Wextra -Iinclude -o target/remap examples/c/remap.c crates/lavandol/out/liblavandol.a
 * The font is edited in memory, where a letter needs up to 4 bytes more. A refused edit leaves it as it was, and nothing is written.
 */
#include "shared.h"
#include <string.h>

static int write_file(const char *path, size_t length) {
    FILE *out = fopen(path, "wb");
    if (!out) return 0;
    size_t written = fwrite(file, 1, length, out);
    return fclose(out) == 0 && written == length;
}

int main(int argc, char **argv) {
    uint32_t glyph, value;
    size_t length;
    int add = argc == 6 && !strcmp(argv[2], "add");
    if (argc != 6 || (!add && strcmp(argv[2], "drop")) || !read_number(argv[3], 10, &glyph) || !read_number(argv[4], 16, &value)) {
        fprintf(stderr, "usage: remap FONT add|drop GLYPH HEX OUT\n");
        return 2;
    }
    if (!read_file(file, argv[1], &length)) {
        perror(argv[1]);
        return 2;
    }

    lav_number edited = (add ? lav_add_mapping : lav_drop_mapping)(file, length + 4, length, glyph, value);
    if (edited.refusal.number) return refused(argv[3], edited.refusal);
    if (!write_file(argv[5], edited.number)) {
        perror(argv[5]);
        return 2;
    }
    printf("%" PRIu32 ": %zu bytes\n", glyph, edited.number);
    return 0;
}
