/*
 * Calls the library once for each figure of tools/bench, each from a function of its own whose instructions callgrind counts:
 *   driver FONT       prints the value of the last glyph that is looked up, the size of a loader, and the stack that each call used
 *   driver FONT CALL OUT   converts by CALL (psf2_to_vfont2, ..) and writes the file OUT
 *   driver FONT ROUNDS     prints the best time of a check, of lookups that find nothing, glyph 0 and the last glyph, of a conversion to PSF1
 *                          and of a load in frames, in microseconds
 *   driver FONT edits ROUNDS   prints the best time of a check, of a copy of the table, and of an add and a drop at glyph 0 and at the last
 *                          glyph, in microseconds
 *   driver FONT differences OTHER          compares two fonts: prints the count of pairs and the stack that the call used
 *   driver FONT differences OTHER ROUNDS   prints the best time of a check of each and of their comparison, with room for any pairs and with
 *                          just the room that it needs, in microseconds
 */
#include <lavandol.h>
#include <stdio.h>
#include <stdlib.h>
#include <string.h>
#include <time.h>
#include <ucontext.h>

#define ROOM 1048576
static uint8_t file[ROOM + 1], other[ROOM + 1], out[ROOM];
static size_t length, other_length, bitmaps, bitmap_bytes, table, last_glyph;
static uint32_t first, last; /* the first value of glyph 0 and of the last glyph */
static volatile size_t kept; /* so that no call is left out */

/* A library from before these calls were there is measured without them; NO_LOADER, NO_EDITS, NO_DIFFERENCES: its header lacks them. */
#pragma weak lav_metrics
#pragma weak lav_add_mapping
#pragma weak lav_drop_mapping
#pragma weak lav_differences
#pragma weak lav_loader_fresh
#pragma weak lav_loader_feed
#pragma weak lav_loader_close

/* Whether an answer is a refusal; before version 2 its number stood in the answer itself. */
#if LAVANDOL_VERSION + 0 < 2
#define REFUSED(answer) ((answer).refusal)
#else
#define REFUSED(answer) ((answer).refusal.number)
#endif

#define FIGURE(name, call) __attribute__((noinline)) void bench_##name(void) { kept += (call); }
FIGURE(check, lav_check(file, length).count)
FIGURE(none, REFUSED(lav_find_value(file, length, 0x10FFF0)))
FIGURE(first, lav_find_value(file, length, first).number)
FIGURE(last, lav_find_value(file, length, last).number)
FIGURE(psf1_to_psf2, lav_psf1_to_psf2(file, length, out, ROOM).number)
FIGURE(psf2_to_psf1, lav_psf2_to_psf1(file, length, out, ROOM).number)
FIGURE(psf2_to_vfont2, lav_psf2_to_vfont2(file, length, out, ROOM).number)
FIGURE(vfont2_to_psf2, lav_vfont2_to_psf2(file, length, out, ROOM).number)
FIGURE(glyph, lav_glyph(file, length, 0).length)
FIGURE(row, lav_row(file, length, 0, 0).length)
FIGURE(pixel, lav_pixel(file, length, 0, 0, 0).number)
FIGURE(metrics, lav_metrics ? (size_t)lav_metrics(file, length, 0).right : 0)
FIGURE(item, lav_item(file, length, 0, 0).value)
FIGURE(sequence, lav_find_sequence(file, length, &last, 1).number)
FIGURE(alike, lav_find_sequence(file, length, (const uint32_t[]){0x41, 0x10FFF0}, 2).number)
__attribute__((noinline)) void bench_copy(void) { memcpy(out, file, length); kept += out[length - 1]; }
__attribute__((noinline)) void bench_bitmaps(void) { memcpy(out, file + bitmaps, bitmap_bytes); kept += out[0]; }
__attribute__((noinline)) void bench_table(void) { memcpy(out, file + table, length - table); kept += out[0]; }
__attribute__((noinline)) void bench_empty(void) { kept += length; }

/* The font as it arrives: a fresh loader, frames of FRAME bytes, the close. */
#define FRAME 64
#ifdef NO_LOADER
#define HAS_LOADER 0
#define LOADER_BYTES (size_t)0
static size_t loaded;
static void bench_loader_fresh(void) {}
static void bench_loader_feed(void) {}
static void bench_loader_close(void) {}
static void bench_byte_by_byte(void) {}
#else
#define HAS_LOADER (lav_loader_fresh && lav_loader_feed && lav_loader_close)
#define LOADER_BYTES sizeof(lav_loader)
static lav_loader loader;
static size_t loaded; /* glyphs by the last close */
static void feed(size_t frame) {
    for (size_t at = 0; at < length; at += frame) kept += lav_loader_feed(&loader, file + at, length - at < frame ? length - at : frame).number;
}
__attribute__((noinline)) void bench_loader_fresh(void) { loader = lav_loader_fresh(); }
__attribute__((noinline)) void bench_loader_feed(void) { feed(FRAME); }
__attribute__((noinline)) void bench_loader_close(void) { loaded = lav_loader_close(&loader).count; }
__attribute__((noinline)) void bench_byte_by_byte(void) { loader = lav_loader_fresh(); feed(1); loaded = lav_loader_close(&loader).count; }
#endif
static void in_frames(void) { bench_loader_fresh(); bench_loader_feed(); bench_loader_close(); }

/* A value of 4 bytes, and one of a single byte ("short"), that glyph 0 and the last glyph have in no font here, added and dropped again: each
 * add is followed by its drop. */
#ifdef NO_EDITS
#define HAS_EDITS 0
#define EDIT(name, call, g, len, v) static void bench_##name(void) {}
#else
#define HAS_EDITS (lav_add_mapping && lav_drop_mapping)
#define EDIT(name, call, g, len, v) \
    __attribute__((noinline)) void bench_##name(void) { if (HAS_EDITS) edited = call(file, sizeof file, len, g, v).number; }
#endif
static size_t edited; /* the font's length by the last edit */
EDIT(add_first, lav_add_mapping, 0, length, 0x10FFF0)
EDIT(drop_first, lav_drop_mapping, 0, edited, 0x10FFF0)
EDIT(add_short, lav_add_mapping, 0, length, 1)
EDIT(drop_short, lav_drop_mapping, 0, edited, 1)
EDIT(add_last, lav_add_mapping, last_glyph, length, 0x10FFF0)
EDIT(drop_last, lav_drop_mapping, last_glyph, edited, 0x10FFF0)

/* Two fonts compared. */
#ifdef NO_DIFFERENCES
#define HAS_DIFFERENCES 0
static size_t compared;
static void bench_differences(void) {}
static void bench_fitting(void) {}
#else
#define HAS_DIFFERENCES (lav_differences != 0)
static uint32_t pairs[2 * (4096 + 4096)]; /* room for any pairs */
static size_t compared; /* pairs by the last comparison */
static size_t compare(size_t room) {
    lav_differences_answer answer = lav_differences(file, length, other, other_length, pairs, room);
    return REFUSED(answer) ? SIZE_MAX : answer.count;
}
__attribute__((noinline)) void bench_differences(void) { compared = compare(sizeof pairs / sizeof *pairs); }
/* Again, with room for just the pairs that were found. */
__attribute__((noinline)) void bench_fitting(void) { kept += compare(2 * compared); }
#endif
FIGURE(check_other, lav_check(other, other_length).count)

static const struct { const char *name; void (*call)(void); } FIGURES[] = {
    {"check", bench_check}, {"find_value, nothing found", bench_none}, {"find_value, last glyph", bench_last},
    {"psf1_to_psf2", bench_psf1_to_psf2}, {"psf2_to_psf1", bench_psf2_to_psf1},
    {"psf2_to_vfont2", bench_psf2_to_vfont2}, {"vfont2_to_psf2", bench_vfont2_to_psf2},
    {"glyph", bench_glyph}, {"row", bench_row}, {"pixel", bench_pixel}, {"metrics", bench_metrics},
    {"item", bench_item}, {"find_sequence", bench_sequence}, {"find_sequence, alike", bench_alike}, {"find_value, glyph 0", bench_first},
    {"add_mapping, glyph 0", bench_add_first}, {"drop_mapping, glyph 0", bench_drop_first},
    {"add_mapping, one byte", bench_add_short}, {"drop_mapping, one byte", bench_drop_short},
    {"add_mapping, last glyph", bench_add_last}, {"drop_mapping, last glyph", bench_drop_last},
    {"loader_fresh", bench_loader_fresh}, {"loader_feed", bench_loader_feed}, {"loader_close", bench_loader_close},
};
#define LOADER_FIGURES 3 /* the last ones */

/* Lowers the best time of a call by one more turn. */
static void turn(void (*call)(void), double *best) {
    struct timespec a, b;
    clock_gettime(CLOCK_MONOTONIC, &a);
    call();
    clock_gettime(CLOCK_MONOTONIC, &b);
    double took = (b.tv_sec - a.tv_sec) * 1e6 + (b.tv_nsec - a.tv_nsec) / 1e3;
    if (took < *best) *best = took;
}

static double best_of(void (*call)(void), int rounds) {
    double best = 1e9;
    for (int i = 0; i < rounds; i++) turn(call, &best);
    return best;
}

/* All in turn, so that each drop undoes the add before it. */
static int time_edits(int rounds) {
    static const struct { const char *name; void (*call)(void); } CALLS[] = {
        {"check", bench_check}, {"table", bench_table}, {"add_first", bench_add_first}, {"drop_first", bench_drop_first},
        {"add_short", bench_add_short}, {"drop_short", bench_drop_short}, {"add_last", bench_add_last}, {"drop_last", bench_drop_last},
    };
    enum { COUNT = sizeof CALLS / sizeof *CALLS };
    double best[COUNT];
    for (int k = 0; k < COUNT; k++) best[k] = 1e9;
    for (int i = 0; i < rounds; i++) {
        for (int k = 0; k < COUNT; k++) turn(CALLS[k].call, &best[k]);
        if (edited != length) return 1;
    }
    for (int k = 0; k < COUNT; k++) printf("%s %.2f us ", CALLS[k].name, best[k]);
    putchar('\n');
    return 0;
}

/* The stack that a call used, from a painted stack of its own. */
static uint8_t stack[65536];
static ucontext_t here, there;

static size_t stack_of(void (*call)(void)) {
    memset(stack, 0xA5, sizeof stack);
    getcontext(&there);
    there.uc_stack.ss_sp = stack;
    there.uc_stack.ss_size = sizeof stack;
    there.uc_link = &here;
    makecontext(&there, call, 0);
    swapcontext(&here, &there);
    size_t untouched = 0;
    while (untouched < sizeof stack && stack[untouched] == 0xA5) untouched++;
    return sizeof stack - untouched;
}

static size_t read_font(const char *path, uint8_t *to) {
    FILE *in = fopen(path, "rb");
    if (!in) exit(2);
    size_t bytes = fread(to, 1, ROOM + 1, in);
    fclose(in);
    return bytes;
}

/* The comparison of the font with another, which is read here. */
static int differences(const char *path, int rounds) {
    other_length = read_font(path, other);
    if (!HAS_DIFFERENCES) return 1;
    if (rounds) {
        double best[4] = {1e9, 1e9, 1e9, 1e9};
        for (int i = 0; i < rounds; i++) {
            turn(bench_check, &best[0]);
            turn(bench_check_other, &best[1]);
            turn(bench_differences, &best[2]);
            turn(bench_fitting, &best[3]);
        }
        printf("check %.2f us other %.2f us differences %.2f us fitting %.2f us\n", best[0], best[1], best[2], best[3]);
    } else {
        bench_check();
        bench_check_other();
        size_t base = stack_of(bench_empty), used = stack_of(bench_differences);
        bench_fitting();
        printf("pairs %zu\nstack %zu differences\n", compared, used - base);
    }
    return compared == SIZE_MAX;
}

int main(int argc, char **argv) {
    if (argc < 2) return 2;
    length = read_font(argv[1], file);
    lav_font font = lav_check(file, length);
    if (REFUSED(font)) return 1;
    first = lav_item(file, length, 0, 0).value;
    last = lav_item(file, length, font.count - 1, 0).value;
    bitmaps = font.bitmaps;
    bitmap_bytes = font.end - font.bitmaps;
    table = font.end;
    last_glyph = font.count - 1;
    if (argc == 3) {
        int rounds = atoi(argv[2]);
        printf("check %.2f us lookup %.2f us", best_of(bench_check, rounds), best_of(bench_none, rounds));
        printf(" first %.2f us last %.2f us", best_of(bench_first, rounds), best_of(bench_last, rounds));
        printf(" psf2_to_psf1 %.2f us", best_of(bench_psf2_to_psf1, rounds));
        if (HAS_LOADER) printf(" frames %.2f us", best_of(in_frames, rounds));
        putchar('\n');
        return 0;
    }
    if (argc >= 4 && !strcmp(argv[2], "differences")) return differences(argv[3], argc > 4 ? atoi(argv[4]) : 0);
    if (argc == 4 && !strcmp(argv[2], "edits")) return time_edits(atoi(argv[3]));
    if (argc == 4) {
        for (size_t i = 3; i < 7; i++) {
            if (strcmp(argv[2], FIGURES[i].name)) continue;
            kept = 0;
            FIGURES[i].call();
            FILE *to = fopen(argv[3], "wb");
            if (!kept || !to || fwrite(out, 1, kept, to) != kept || fclose(to)) return 1;
        }
        return 0;
    }
    printf("last %X\ntable %zu\n", (unsigned)last, length - table);
    bench_copy();
    bench_bitmaps();
    bench_table();
    size_t figures = sizeof FIGURES / sizeof *FIGURES;
    if (HAS_LOADER) {
        printf("loader %zu\n", LOADER_BYTES);
        bench_byte_by_byte();
        if (loaded != font.count) return 1;
        loaded = 0;
    } else {
        figures -= LOADER_FIGURES;
    }
    size_t base = stack_of(bench_empty);
    for (size_t i = 0; i < figures; i++) {
        size_t used = stack_of(FIGURES[i].call);
        printf("stack %zu %s\n", used - base, FIGURES[i].name);
    }
    /* the load in frames was a load */
    return HAS_LOADER && loaded != font.count;
}
