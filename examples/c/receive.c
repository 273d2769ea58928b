/*
 * Checks a font while it arrives on standard input, in frames as a serial line would bring them:
 *   target/receive 64 < examples/fonts/small.psf2      (frames of up to 64 bytes; 1 to 4,096)
 * Build, in the repository's folder after `tools/built lavandol` and `mkdir -p target`:
 *   gcc -O2 -Wall -Wextra -Iinclude -o target/receive examples/c/receive.c crates/lavandol/out/liblavandol.a
 * Only one frame and the loader are in memory. A font that is to be used afterwards would be stored frame by frame beside the feeding.
 */
#include <inttypes.h>
#include <lavandol.h>
#include <stdio.h>
#include <stdlib.h>

static uint8_t frame[4096];

int main(int argc, char **argv) {
    long most = argc == 2 ? strtol(argv[1], NULL, 10) : 0;
    if (most < 1 || most > (long)sizeof frame) {
        fprintf(stderr, "usage: receive BYTES\n");
        return 2;
    }

    lav_loader loader = lav_loader_fresh();
    size_t frames = 0, length;
    while ((length = fread(frame, 1, (size_t)most, stdin)) > 0) {
        lav_refusal late = lav_loader_feed(&loader, frame, length); /* LATE alone, and this loader is open */
        if (late.number) return 2;
        frames++;
    }
    if (ferror(stdin)) {
        perror("standard input");
        return 2;
    }

    lav_font font = lav_loader_close(&loader);
    if (font.refusal.number) {
        lav_refusal r = font.refusal;
        fprintf(stderr, "%zu frames: refused %" PRIu32 " %" PRIu64 " %" PRIu32 "\n", frames, r.number, r.place, r.glyph);
        return 1;
    }
    printf("%zu frames: sound, %zu glyphs\n", frames, font.count);
    return 0;
}
