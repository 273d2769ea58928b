// A plain C reading of document 01's checks and value lookup, with document 02's values, for PSF1 and PSF2, without allocation: a floor to hold speeds against.
//   gcc -O2 -o floor floor.c && ./floor FONT ROUNDS [HEX]
// prints the check's number and place, and the best time of a check and of a lookup of the value HEX (10FFF0, which finds nothing, if none is given).
// Instructions: valgrind --tool=callgrind --toggle-collect=check (or =lookup) ./floor FONT 1
#include <stdint.h>
#include <stdio.h>
#include <stdlib.h>
#include <time.h>

enum { VALUE, START, END, CUT, BAD };

typedef struct {
    unsigned refusal;
    size_t place, count, size, bitmaps, table;
    int has_table, utf8;
} Font;

static uint32_t le32(const uint8_t *b) { return b[0] | b[1] << 8 | b[2] << 16 | (uint32_t)b[3] << 24; }

// FDD0 to FDEF, and the last two of each plane: no values.
static inline int noncharacter(uint32_t v) { return v - 0xFDD0 < 0x20 || (v & 0xFFFE) == 0xFFFE; }

// One token at *at; past it on success, at the offending byte where it is bad.
static inline int utf8_token(const uint8_t *t, size_t n, size_t *at, uint32_t *value) {
    uint8_t b = t[*at], lo = 0x80, hi = 0xBF;
    int more;
    uint32_t v;
    if (b < 0x80) { *value = b; ++*at; return VALUE; }
    if (b == 0xFF) { ++*at; return END; }
    if (b == 0xFE) { ++*at; return START; }
    if (b < 0xC2) return BAD;
    if (b <= 0xDF) { more = 1; v = b & 31; }
    else if (b <= 0xEF) { more = 2; v = b & 15; if (b == 0xE0) lo = 0xA0; else if (b == 0xED) hi = 0x9F; }
    else if (b <= 0xF4) { more = 3; v = b & 7; if (b == 0xF0) lo = 0x90; else if (b == 0xF4) hi = 0x8F; }
    else return BAD;
    for (int j = 1; j <= more; j++) {
        if (*at + j >= n) return CUT;
        uint8_t c = t[*at + j];
        if (c < lo || c > hi) { *at += j; return BAD; }
        lo = 0x80;
        hi = 0xBF;
        v = v << 6 | (c & 63);
    }
    if (more > 1 && noncharacter(v)) { *at += more; return BAD; }
    *at += more + 1;
    *value = v;
    return VALUE;
}

static inline int psf1_token(const uint8_t *t, size_t n, size_t *at, uint32_t *value) {
    if (*at + 2 > n) return CUT;
    uint32_t v = t[*at] | t[*at + 1] << 8;
    *at += 2;
    if (v == 0xFFFF) return END;
    if (v == 0xFFFE) return START;
    if (noncharacter(v)) { --*at; return BAD; }
    *value = v;
    return VALUE;
}

#define REFUSE(number, where) do { r.refusal = number; r.place = where; return r; } while (0)

__attribute__((noinline)) Font check(const uint8_t *b, size_t n) {
    Font r = {0};
    int kind;
    if (n > 1048576) REFUSE(1, 1048576);
    if (n >= 2 && b[0] == 0x36 && b[1] == 4) kind = 1;
    else if (n >= 4 && le32(b) == 0x864AB572) kind = 2;
    else REFUSE(2, 0);
    if (kind == 1) {
        if (n < 4) REFUSE(3, n);
        if (b[2] > 5) REFUSE(4, 2);
        if (!b[3]) REFUSE(7, 3);
        r.count = b[2] & 1 ? 512 : 256;
        r.size = b[3];
        r.bitmaps = 4;
        r.has_table = !!(b[2] & 6);
    } else {
        if (n < 32) REFUSE(3, n);
        if (le32(b + 4)) REFUSE(4, 4);
        if (le32(b + 12) > 1) REFUSE(4, 12);
        uint32_t header = le32(b + 8), count = le32(b + 16), height = le32(b + 24), width = le32(b + 28);
        if (header < 32 || header > 4096) REFUSE(5, 8);
        if (!count || count > 4096) REFUSE(6, 16);
        if (!height || height > 255) REFUSE(7, 24);
        if (!width || width > 255) REFUSE(7, 28);
        if (le32(b + 20) != height * ((width + 7) / 8)) REFUSE(7, 20);
        r.count = count;
        r.size = le32(b + 20);
        r.bitmaps = header;
        r.has_table = le32(b + 12);
        r.utf8 = 1;
    }
    r.table = r.bitmaps + r.count * r.size;
    if (n < r.table) REFUSE(8, n);
    if (!r.has_table) {
        if (n > r.table) REFUSE(12, r.table);
        return r;
    }
    const uint8_t *t = b + r.table;
    size_t tail = n - r.table, at = 0;
    for (size_t g = 0; g < r.count; g++) {
        int opened = 0; // 1 just after a start mark, 2 in a sequence that has a value
        for (;;) {
            uint32_t v;
            size_t from = at;
            if (at >= tail) REFUSE(10, n);
            int token = r.utf8 ? utf8_token(t, tail, &at, &v) : psf1_token(t, tail, &at, &v);
            if (token == CUT) REFUSE(10, n);
            if (token == BAD) REFUSE(11, r.table + at);
            if (token != VALUE && opened == 1) REFUSE(11, r.table + (r.utf8 ? from : from + 1));
            if (token == END) break;
            if (token == START) opened = 1;
            else if (opened) opened = 2;
        }
    }
    if (at < tail) REFUSE(12, r.table + at);
    return r;
}

__attribute__((noinline)) long lookup(const uint8_t *b, size_t n, const Font *r, uint32_t value) {
    const uint8_t *t = b + r->table;
    size_t tail = n - r->table, at = 0;
    for (size_t g = 0; g < r->count; g++) {
        int opened = 0;
        for (;;) {
            uint32_t v = 0;
            int token = r->utf8 ? utf8_token(t, tail, &at, &v) : psf1_token(t, tail, &at, &v);
            if (token == END) break;
            if (token == START) opened = 1;
            else if (!opened && v == value) return (long)g;
        }
    }
    return -1;
}

static double microseconds(void) {
    struct timespec now;
    clock_gettime(CLOCK_MONOTONIC, &now);
    return now.tv_sec * 1e6 + now.tv_nsec / 1e3;
}

int main(int argc, char **argv) {
    if (argc < 3) { fprintf(stderr, "usage: floor FONT ROUNDS [HEX]\n"); return 2; }
    FILE *file = fopen(argv[1], "rb");
    if (!file) { perror(argv[1]); return 1; }
    uint8_t *b = malloc(2 << 20);
    size_t n = fread(b, 1, 2 << 20, file);
    int rounds = atoi(argv[2]);
    uint32_t wanted = argc > 3 ? (uint32_t)strtoul(argv[3], NULL, 16) : 0x10FFF0;
    double checked = 1e9, looked = 1e9;
    Font r = {0};
    long found = -1;
    for (int i = 0; i < rounds; i++) {
        double from = microseconds();
        r = check(b, n);
        double took = microseconds() - from;
        if (took < checked) checked = took;
    }
    for (int i = 0; !r.refusal && r.has_table && i < rounds; i++) {
        double from = microseconds();
        found = lookup(b, n, &r, wanted);
        double took = microseconds() - from;
        if (took < looked) looked = took;
    }
    printf("%u %zu check %.1f us lookup %.1f us found %ld %s\n", r.refusal, r.place, checked, looked == 1e9 ? 0 : looked, found, argv[1]);
    return 0;
}
