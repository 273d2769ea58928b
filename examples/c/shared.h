/* What the examples lookup, remap and changes share: a font file in memory, numbers as words, and refusals told. */
#include <ctype.h>
#include <inttypes.h>
#include <lavandol.h>
#include <stdio.h>
#include <stdlib.h>

/* One byte over the limit, so that a longer file is refused as such, and four for a value that is added. */
static uint8_t file[1048577 + 4];

/* The refusals' names; number 0 is none. */
static const char *const names[] = {
    "answered", "too long", "kind", "header cut", "version", "header size", "count", "shape", "body cut", "entry", "table cut",
    "table bad", "trailing", "ask", "no table", "unmapped", "no glyph", "wrong kind", "glyphs", "value", "size", "room",
    "late", "line", "have", "not there",
};

/* Tells a refusal by number, place, glyph (4096: no one glyph) and name: `C5: refused 15 0 4096 (unmapped)`. */
static int refused(const char *what, lav_refusal refusal) {
    const char *name = refusal.number < sizeof names / sizeof *names ? names[refusal.number] : "unknown";
    fprintf(stderr, "%s: refused %" PRIu32 " %" PRIu64 " %" PRIu32 " (%s)\n", what, refusal.number, refusal.place, refusal.glyph, name);
    return 1;
}

/* The number of a word, decimal or hexadecimal: digits alone, and no more than 32 bits. */
static inline int read_number(const char *word, int base, uint32_t *value) {
    for (const char *c = word; *c; c++) {
        if (!(base == 16 ? isxdigit((unsigned char)*c) : isdigit((unsigned char)*c))) return 0;
    }
    unsigned long long number = strtoull(word, NULL, base); /* the greatest there is, where it does not fit */
    *value = (uint32_t)number;
    return *word && number <= UINT32_MAX;
}

/* The whole file, or its first 1,048,577 bytes, to a buffer as long as the one above. A folder can be opened, but not read. */
static int read_file(uint8_t *to, const char *path, size_t *length) {
    FILE *in = fopen(path, "rb");
    if (!in) return 0;
    *length = fread(to, 1, sizeof file - 4, in);
    if (ferror(in)) return 0;
    fclose(in);
    return 1;
}
