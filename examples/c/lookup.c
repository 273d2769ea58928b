/*
 * Looks a letter up in a font and draws its glyph:  target/lookup examples/fonts/small.psf2 C5  (the letter's code point, hexadecimal).
 * Build, in the repository's folder after `tools/built lavandol` and `mkdir -p target`:
 *   gcc -O2 -Wall -Wextra -Iinclude -o target/lookup examples/c/lookup.c crates/lavandol/out/liblavandol.a
 */
#include "shared.h"

/* The rows of a glyph's bitmap, from the top, each of whole bytes; pixels from a byte's top bit on. */
static void draw(const uint8_t *bitmap, size_t height, size_t width) {
    size_t row_bytes = (width + 7) / 8;
    for (size_t y = 0; y < height; y++) {
        const uint8_t *row = bitmap + y * row_bytes;
        for (size_t x = 0; x < width; x++) putchar(row[x / 8] >> (7 - x % 8) & 1 ? '#' : '.');
        putchar('\n');
    }
}

int main(int argc, char **argv) {
    uint32_t value;
    size_t length;
    if (argc != 3) {
        fprintf(stderr, "usage: lookup FONT HEX\n");
        return 2;
    }
    if (!read_number(argv[2], 16, &value)) {
        fprintf(stderr, "%s: not a hexadecimal number of 32 bits\n", argv[2]);
        return 2;
    }
    if (!read_file(file, argv[1], &length)) {
        perror(argv[1]);
        return 2;
    }

    lav_font font = lav_check(file, length);
    if (font.refusal.number) return refused(argv[1], font.refusal);

    lav_number glyph = lav_find_value(file, length, value);
    if (glyph.refusal.number) return refused(argv[2], glyph.refusal);
    printf("glyph %zu of %zu\n", glyph.number, font.count);

    /* A letter may be listed by a glyph that is not drawn (NO GLYPH). */
    lav_part part = lav_glyph(file, length, glyph.number);
    if (part.refusal.number) return refused(argv[2], part.refusal);
    lav_metrics_answer metrics = lav_metrics(file, length, glyph.number);
    if (metrics.refusal.number) return refused(argv[2], metrics.refusal);

    /* up + down and left + right are the glyph's height and width, and its bytes stand in the file. */
    draw(file + part.offset, (size_t)(metrics.up + metrics.down), (size_t)(metrics.left + metrics.right));
    return 0;
}
