/*
 * lavandol.h: bitmap fonts in the formats PSF1, PSF2 and vfont2, read from memory.
 *
 * Link with crates/lavandol/out/liblavandol.a, which `tools/built lavandol` makes: x86-64 ELF, with instructions up to SSE4.1 (as any
 * processor of x86-64-v2 has), its functions called by the System V calling convention. Every function is proved to answer as its comment
 * says on any bytes and any numbers, to end, and to read and write nothing outside the slices that it is lent. The proof ends at this
 * header: nothing checks the declarations below against the library, and the caller must keep the three rules that follow.
 *
 * - A slice is a pointer and a number of elements: `file, file_len` are bytes, `values, value_count` and `pairs, pairs_len` are uint32_t.
 *   So many elements can be read there (written, for a buffer; both, for the buffer of an edit). The pointer must not be NULL, not even
 *   where the length is 0: pass the address of any byte then (of a uint32_t for `values` and `pairs`); nothing is read or written there.
 *   A slice of uint32_t is aligned.
 * - A lent slice does not change during the call; a buffer, or a record that is lent to be changed (lav_loader), overlaps nothing else
 *   that the call is lent.
 * - The pointers are not kept: memory may be moved or freed after the call.
 *
 * The functions allocate nothing, have no global state and no locks, and call nothing: the archive needs no C library. So they may run
 * in several threads at once, and in an interrupt handler; but all of them use SSE registers (the compiler's doing; tools/try-boundary
 * reads it off the archive), so a handler that does not save them must call none. They need at most about 500 bytes of stack, the two edits
 * about 750, lav_differences about 800, lav_loader_close about 850, the four conversions about 900, lav_loader_feed about 1,650
 * (docs/BENCHMARK.md, "Size and stack"), whatever the font. Each call on a file checks the font first, one pass over the header, the vfont2
 * entries and the Unicode table; a lookup is done in that same pass; a walk is another pass over the Unicode table at most, a conversion two;
 * an edit is a pass up to the place and one move of the bytes behind it; a comparison is one pass over the bitmaps and tables of both fonts,
 * side by side, and a second one where the buffer might have been too short. A font that arrives piece by piece is checked as it comes
 * (lav_loader), in the same one pass.
 *
 * Numbers in the files are little endian. Glyphs, rows, columns and items are counted from 0.
 *
 * A value in a Unicode table is a code point that is no noncharacter (FDD0 to FDEF, and the last two of each plane: FFFE, FFFF, 1FFFE and so on
 * to 10FFFF). In PSF1 it is 0000 to FFFD, surrogates included; in PSF2 and vfont2, whose values are UTF-8, it is no surrogate. A font whose
 * table has any other is refused, so no lookup finds a noncharacter and no walk gives one.
 */
#ifndef LAVANDOL_H
#define LAVANDOL_H

#include <stddef.h>
#include <stdint.h>

/*
 * The number of this interface: it grows when a declaration below changes, not when one is added. Since 2 every answer begins with a
 * lav_refusal; since 3 that has a glyph number, where it had padding: code compiled for 2 still reads `number`, `place` and all else right.
 */
#define LAVANDOL_VERSION 3

#ifdef __cplusplus
extern "C" {
#endif

/*
 * Refusals. The first member of each answer is `refusal`, a lav_refusal (lav_loader_feed answers a lav_refusal alone, lav_loader_fresh a
 * record without one). Its number is 0 (LAV_OK) where the question is answered; then its place is 0 and its glyph LAV_GLYPH_NONE. Else its
 * number is one of those below, its place tells where, its glyph which glyph it was, and all other members of the answer are 0 (but `font`
 * of lav_differences, which tells whose it is).
 *
 * Every call on a file gives the font's own refusal, 1 to 12, before any other (but an edit ASK, where it is told more bytes than the
 * buffer has). They are tried in this order and the first that applies is given, so a font that is refused is refused by all calls alike.
 * The places of 1 to 12 are offsets in the file; the place of 13 to 16 is 0; those of 17 to 25 are said at each. The glyph is a number below
 * the font's count for ENTRY at an entry, TABLE_CUT, TABLE_BAD, GLYPHS from vfont2 and VALUE, and LAV_GLYPH_NONE (4096) for all others. In the
 * table it is the number of descriptions that are complete before the place, so the glyph whose description is being read there.
 */
enum {
    LAV_OK = 0,
    LAV_TOO_LONG = 1,    /* the file is over 1,048,576 bytes; place 1048576 */
    LAV_KIND = 2,        /* it begins with none of the three magics; place 0 */
    LAV_HEADER_CUT = 3,  /* it is shorter than 4 (PSF1) or 32 bytes; place: its length */
    LAV_VERSION = 4,     /* mode above 5 (place 2); version not 0 (place 4); flags above 1 (place 12) */
    LAV_HEADER_SIZE = 5, /* header size below 32 or above 4,096; place 8 */
    LAV_COUNT = 6,       /* no glyph, or over 4,096; place 16 */
    LAV_SHAPE = 7,       /* PSF1 size 0 (place 3); PSF2 height (24), then width (28) not in 1 to 255, then a wrong byte count (20);
                            vfont2 greatest height (24), then width (28), above 255 */
    LAV_BODY_CUT = 8,    /* the file ends before the bitmaps do; place: its length */
    LAV_ENTRY = 9,       /* a vfont2 entry breaks a rule (place: the first such entry's start; glyph: its number); then the greatest
                            height (24) or width (28) in the header is not the entries' (no glyph) */
    LAV_TABLE_CUT = 10,  /* the Unicode table ends too early, but more bytes could complete it; place: the file's length; glyph: the
                            first whose description is not complete */
    LAV_TABLE_BAD = 11,  /* no table begins so; place: the first byte after the longest part that could still be completed, so the last
                            byte of a noncharacter; glyph: the one whose description this byte is in */
    LAV_TRAILING = 12,   /* bytes after a complete table, or after the bitmaps of a font without one; place: the first such byte; it is in
                            no glyph's description */

    LAV_ASK = 13,        /* the question's fault: glyph, item, row or column number too high, value above 10FFFF, empty sequence; of an
                            edit also a surrogate, or a font's length above the buffer's; of an add also a noncharacter; place 0 */
    LAV_NO_TABLE = 14,   /* a walk, lookup or edit on a font without a Unicode table; place 0 */
    LAV_UNMAPPED = 15,   /* no glyph lists it, as of a noncharacter always; place 0 */
    LAV_NO_GLYPH = 16,   /* a bitmap or metrics asked of a vfont2 entry of size 0; place 0 */

    LAV_WRONG_KIND = 17, /* the conversion wants another kind, an edit wants PSF2; place 0 */
    LAV_GLYPHS = 18,     /* the target can't have these glyphs; to PSF1: not 256 or 512 of them (place 16), then width not 8 (28; both no
                            glyph); vfont2 to PSF2: place is the start, and glyph the number, of the first entry that has no glyph or
                            whose five metrics are not (greatest height, 0, 0, greatest width, greatest width) */
    LAV_VALUE = 19,      /* the target can't have a value: a surrogate (PSF1 to PSF2), above FFFF (to PSF1); place: its first byte; glyph:
                            the one that lists it, as a single or in a sequence */
    LAV_SIZE = 20,       /* the output, or the edited font, would be over 1,048,576 bytes; place 0 */
    LAV_ROOM = 21,       /* the lent buffer is shorter than the output, or than the edited font; place: the size needed, in bytes; of
                            lav_differences: it has fewer numbers than the pairs; place: the count of numbers needed */

    LAV_LATE = 22,       /* a piece or a close for a loader that is closed, which stays as it was; place 0 */
    LAV_LINE = 23,       /* no call gives it: the program fontload does, for a line that is no frame; place: the line's number, from 1 */

    LAV_HAVE = 24,       /* the glyph lists the value that is to be added as a single already; place 0 */
    LAV_NOT_THERE = 25   /* the glyph does not list the value that is to be dropped as a single, as of a noncharacter always; place 0 */
};

/* Kinds of font (`kind` of lav_font). */
enum { LAV_PSF1 = 1, LAV_PSF2 = 2, LAV_VFONT2 = 3 };

/* Kinds of item in a glyph's description (`kind` of lav_item_answer). */
enum { LAV_SINGLE = 1, LAV_START = 2, LAV_VALUE_IN_SEQUENCE = 3, LAV_END = 4 };

/* Kinds of difference between two fonts (the first number of each pair that lav_differences writes). */
enum {
    LAV_ONLY_IN_FIRST = 1,  /* the glyph's number is not below the second font's count */
    LAV_ONLY_IN_SECOND = 2, /* it is not below the first font's count */
    LAV_METRICS_DIFFER = 3, /* the metrics differ, or just one of the fonts has no glyph there (a vfont2 entry of size 0) */
    LAV_PIXELS_DIFFER = 4,  /* the metrics agree, a pixel does not */
    LAV_ITEMS_DIFFER = 5,   /* the descriptions differ in an item */
    LAV_TABLE_DIFFERS = 6   /* just one of the fonts has a Unicode table; the pair's second number is 0 */
};

/* `glyph` of a lav_refusal where there is no glyph to name: a font has 4,096 glyphs at most, so none has this number. 0 is a glyph. */
#define LAV_GLYPH_NONE 4096

/* A refusal, the first member of every answer. */
typedef struct {
    uint32_t number; /* LAV_OK where the question is answered, else LAV_TOO_LONG to LAV_LATE, LAV_HAVE or LAV_NOT_THERE */
    uint32_t glyph;  /* which glyph it was, else LAV_GLYPH_NONE, as where the question is answered */
    uint64_t place;
} lav_refusal;

/* What a sound font's header says. */
typedef struct {
    lav_refusal refusal;
    uint32_t kind;  /* LAV_PSF1, LAV_PSF2 or LAV_VFONT2 */
    size_t count;   /* glyphs */
    size_t height;  /* greatest height and width of a glyph, in pixels */
    size_t width;
    size_t table;   /* 1 where the font has a Unicode table, else 0. PSF1: where bit 1 or bit 2 of the mode is set, modes 2 to 5 */
    size_t entries; /* offset of the dispatch table (vfont2); of the bitmaps (PSF1, PSF2) */
    size_t bitmaps; /* offset of the bitmaps */
    size_t size;    /* bytes per glyph (PSF1, PSF2); bytes of all bitmaps (vfont2) */
    size_t end;     /* offset of the first byte after the bitmaps: the Unicode table, if there is one */
} lav_font;

/* A part of the file: `length` bytes from `offset` on. Both are 0 where the question is refused; offset + length <= file_len always. */
typedef struct {
    lav_refusal refusal;
    size_t offset;
    size_t length;
} lav_part;

/* A glyph's metrics, in pixels; each may be negative. All are 0 where the question is refused. */
typedef struct {
    lav_refusal refusal;
    int32_t up;      /* rows above the baseline point, */
    int32_t down;    /* and below it */
    int32_t left;    /* columns left of the baseline point, */
    int32_t right;   /* and right of it */
    int32_t logical; /* logical width: from this glyph's baseline point to the next glyph's */
} lav_metrics_answer;

/* One item of a glyph's description. A mark has the value 0. */
typedef struct {
    lav_refusal refusal;
    uint32_t kind; /* LAV_SINGLE, LAV_START, LAV_VALUE_IN_SEQUENCE or LAV_END */
    uint32_t value;
} lav_item_answer;

/* One number; what it counts is said at each call. */
typedef struct {
    lav_refusal refusal;
    size_t number;
} lav_number;

/* What a comparison of two fonts answers. */
typedef struct {
    lav_refusal refusal;
    uint32_t font; /* which font was refused, 1 or 2; 0 where the call is answered, and for ROOM */
    size_t count;  /* pairs written: 0 where the fonts agree */
} lav_differences_answer;

/*
 * The state of a font's check while the font arrives: see lav_loader_fresh. The caller owns the record and lends it; its members, and the
 * three structs that it is made of, are the library's own, not to be read or set. Between calls it may be copied or moved like any struct.
 */
typedef struct {
    size_t len; /* so many bytes of the header, of a vfont2 entry or of a value or mark have come, but not all */
    uint8_t bytes[32];
} lav_held;

typedef struct {
    size_t broken; /* where the first vfont2 entry that breaks a rule starts, or 0 */
    size_t height; /* the greatest height and width of the entries so far */
    size_t width;
} lav_sums;

typedef struct {
    size_t ended;  /* descriptions of the Unicode table that are complete */
    size_t opened; /* 1 just after a start mark, else 0 */
    size_t halted; /* LAV_TABLE_BAD or LAV_TRAILING once that is sure, with its place; else 0 */
    size_t place;
} lav_standing;

typedef struct {
    size_t total;  /* bytes so far */
    size_t closed; /* 0 until the close */
    uint8_t header[32];
    lav_held held;
    lav_sums sums;
    lav_standing standing;
} lav_loader;

/* The sizes that the library's own structs have, and where their members stand: a compiler that lays them out otherwise stops here. */
#if defined __cplusplus && __cplusplus >= 201103L
#define LAVANDOL_ASSERT static_assert
#elif defined __STDC_VERSION__ && __STDC_VERSION__ >= 201112L
#define LAVANDOL_ASSERT _Static_assert
#endif
#ifdef LAVANDOL_ASSERT
#define LAVANDOL_SIZE(type, size) LAVANDOL_ASSERT(sizeof(type) == size, #type " has " #size " bytes")
#define LAVANDOL_AT(type, member, at) LAVANDOL_ASSERT(offsetof(type, member) == at, #member " of " #type " stands at " #at)
LAVANDOL_SIZE(lav_refusal, 16);
LAVANDOL_AT(lav_refusal, number, 0);
LAVANDOL_AT(lav_refusal, glyph, 4);
LAVANDOL_AT(lav_refusal, place, 8);
LAVANDOL_SIZE(lav_font, 88);
LAVANDOL_AT(lav_font, refusal, 0);
LAVANDOL_AT(lav_font, kind, 16);
LAVANDOL_AT(lav_font, count, 24);
LAVANDOL_AT(lav_font, height, 32);
LAVANDOL_AT(lav_font, width, 40);
LAVANDOL_AT(lav_font, table, 48);
LAVANDOL_AT(lav_font, entries, 56);
LAVANDOL_AT(lav_font, bitmaps, 64);
LAVANDOL_AT(lav_font, size, 72);
LAVANDOL_AT(lav_font, end, 80);
LAVANDOL_SIZE(lav_part, 32);
LAVANDOL_AT(lav_part, refusal, 0);
LAVANDOL_AT(lav_part, offset, 16);
LAVANDOL_AT(lav_part, length, 24);
LAVANDOL_SIZE(lav_metrics_answer, 40);
LAVANDOL_AT(lav_metrics_answer, refusal, 0);
LAVANDOL_AT(lav_metrics_answer, up, 16);
LAVANDOL_AT(lav_metrics_answer, down, 20);
LAVANDOL_AT(lav_metrics_answer, left, 24);
LAVANDOL_AT(lav_metrics_answer, right, 28);
LAVANDOL_AT(lav_metrics_answer, logical, 32);
LAVANDOL_SIZE(lav_item_answer, 24);
LAVANDOL_AT(lav_item_answer, refusal, 0);
LAVANDOL_AT(lav_item_answer, kind, 16);
LAVANDOL_AT(lav_item_answer, value, 20);
LAVANDOL_SIZE(lav_number, 24);
LAVANDOL_AT(lav_number, refusal, 0);
LAVANDOL_AT(lav_number, number, 16);
LAVANDOL_SIZE(lav_differences_answer, 32);
LAVANDOL_AT(lav_differences_answer, refusal, 0);
LAVANDOL_AT(lav_differences_answer, font, 16);
LAVANDOL_AT(lav_differences_answer, count, 24);
LAVANDOL_SIZE(lav_held, 40);
LAVANDOL_AT(lav_held, len, 0);
LAVANDOL_AT(lav_held, bytes, 8);
LAVANDOL_SIZE(lav_sums, 24);
LAVANDOL_AT(lav_sums, broken, 0);
LAVANDOL_AT(lav_sums, height, 8);
LAVANDOL_AT(lav_sums, width, 16);
LAVANDOL_SIZE(lav_standing, 32);
LAVANDOL_AT(lav_standing, ended, 0);
LAVANDOL_AT(lav_standing, opened, 8);
LAVANDOL_AT(lav_standing, halted, 16);
LAVANDOL_AT(lav_standing, place, 24);
LAVANDOL_SIZE(lav_loader, 144);
LAVANDOL_AT(lav_loader, total, 0);
LAVANDOL_AT(lav_loader, closed, 8);
LAVANDOL_AT(lav_loader, header, 16);
LAVANDOL_AT(lav_loader, held, 48);
LAVANDOL_AT(lav_loader, sums, 88);
LAVANDOL_AT(lav_loader, standing, 112);
#undef LAVANDOL_AT
#undef LAVANDOL_SIZE
#undef LAVANDOL_ASSERT
#endif

/* Checks a font. Refusals: 1 to 12. A font that passes is refused by no later call on the same bytes with 1 to 12. */
lav_font lav_check(const uint8_t *file, size_t file_len);

/*
 * Where glyph g's bitmap stands in the file: rows from the top, each row so many whole bytes as its pixels fill, pixels from a byte's
 * top bit on, 1 is drawn. Bits after a row's last pixel may be anything. offset + length <= file_len.
 * Refusals: 1 to 12, ASK (no glyph g), NO_GLYPH.
 */
lav_part lav_glyph(const uint8_t *file, size_t file_len, size_t g);

/*
 * Where row y of glyph g stands. offset + length <= file_len.
 * Refusals: 1 to 12, ASK (no glyph g), NO_GLYPH, ASK (no row y in this glyph).
 */
lav_part lav_row(const uint8_t *file, size_t file_len, size_t g, size_t y);

/*
 * The pixel of row y and column x of glyph g: 1 is drawn, 0 not. Each call checks the font again: to draw a glyph, rather ask
 * lav_glyph once and read its bytes. Refusals: as lav_row, and ASK (no column x in this glyph).
 */
lav_number lav_pixel(const uint8_t *file, size_t file_len, size_t g, size_t y, size_t x);

/*
 * The metrics of glyph g: the entry's own five numbers in a vfont2 font, (height, 0, 0, width, width) in a PSF1 or PSF2 font.
 * up + down and left + right are the glyph's own height and width, 1 to 255. Refusals: 1 to 12, ASK (no glyph g), NO_GLYPH.
 */
lav_metrics_answer lav_metrics(const uint8_t *file, size_t file_len, size_t g);

/*
 * Item k of glyph g's description, in the order of the file: its singles, then for each sequence a start mark and its values, last the
 * end mark. So a walk asks k = 0, 1, .. up to LAV_END. Each call checks the font again, its whole table too, and then goes to the item
 * from the table's start. So the time of one call is linear in the table's length, and that of a walk over all items quadratic: in a
 * font of 1 MiB whose one glyph lists 349,514 values a call took 2 to 4 ms, so all of them take a quarter of an hour.
 * Refusals: 1 to 12, NO_TABLE, ASK (no glyph g, or no item k).
 */
lav_item_answer lav_item(const uint8_t *file, size_t file_len, size_t g, size_t k);

/*
 * The lowest glyph that lists value v as a single. Refusals: 1 to 12, NO_TABLE, ASK (v above 10FFFF), UNMAPPED (also where v is a
 * noncharacter, or a surrogate in PSF2 and vfont2).
 */
lav_number lav_find_value(const uint8_t *file, size_t file_len, uint32_t v);

/*
 * The lowest glyph that lists the sequence: after some start mark, exactly these values up to the next mark. A sequence of one value
 * is not a single. `values` must not be NULL, also where value_count is 0. Refusals: 1 to 12, NO_TABLE, ASK (no values, or one above
 * 10FFFF), UNMAPPED (also where one is a noncharacter).
 */
lav_number lav_find_sequence(const uint8_t *file, size_t file_len, const uint32_t *values, size_t value_count);

/*
 * Conversions. Each writes the whole output to the front of the lent buffer `out` and answers how many bytes that is; what stands
 * behind them in the buffer stays. A refused conversion leaves the buffer as it was. The written header has 32 bytes (4 for PSF1) and
 * version 0; extra header bytes are dropped.
 *
 * To learn the size needed, lend a buffer of length 0: ROOM gives it as its place. Its pointer must not be NULL; the address of any byte
 * will do, which is neither read nor written:
 *     uint8_t none;
 *     lav_refusal r = lav_psf2_to_vfont2(file, file_len, &none, 0).refusal;    (r.number is LAV_ROOM, r.place the size)
 *
 * Refusals, tried in this order: 1 to 12, WRONG_KIND, GLYPHS, VALUE, SIZE, ROOM; a conversion that can't meet one is named so.
 */

/* GLYPHS does not occur. VALUE: a surrogate, which UTF-8 can't have. */
lav_number lav_psf1_to_psf2(const uint8_t *file, size_t file_len, uint8_t *out, size_t out_len);

/*
 * GLYPHS: not 256 or 512 glyphs, or width not 8. VALUE: above FFFF. The mode written is 1 for 512 glyphs plus 2 for a table: a PSF1 file of
 * mode 4 or 5 comes back from PSF2 as mode 2 or 3, with its other bytes as they were; one of mode 0 to 3 as it was.
 */
lav_number lav_psf2_to_psf1(const uint8_t *file, size_t file_len, uint8_t *out, size_t out_len);

/* GLYPHS and VALUE do not occur. */
lav_number lav_psf2_to_vfont2(const uint8_t *file, size_t file_len, uint8_t *out, size_t out_len);

/* GLYPHS: an entry without a glyph, or with other metrics than (greatest height, 0, 0, greatest width, greatest width). */
lav_number lav_vfont2_to_psf2(const uint8_t *file, size_t file_len, uint8_t *out, size_t out_len);

/*
 * Edits of a font in memory. `buffer` holds a PSF2 font at its front, in its first `len` bytes, and is changed in place: glyph g gets the
 * value v as its last single, or loses the first listing of v that it has as a single. The answer is the font's new length: by 1 to 4 bytes
 * more or less, as long as v is in UTF-8. Header (its extra bytes too), bitmaps, and every other item of every description stay; so do the
 * bytes of the buffer behind the longer of the old and the new font. Bytes that a drop frees, from the new length to the old, become 0. An
 * add and then a drop of the same value give back the font. A refused edit leaves the buffer as it was.
 *     lav_number longer = lav_add_mapping(buffer, sizeof buffer, len, g, 0x20AC);
 *     if (!longer.refusal.number) len = longer.number;
 *
 * To learn the size needed, lend a buffer of just the font: ROOM gives it as its place. The time is that of one check, one pass over the
 * table up to the place and one move of the bytes behind it.
 *
 * Refusals, tried in this order:
 * - ASK (len is above buffer_len);
 * - 1 to 12, of the first len bytes;
 * - WRONG_KIND (not PSF2), NO_TABLE;
 * - ASK (no glyph g, v above 10FFFF, or v a surrogate, D800 to DFFF; lav_add_mapping: also v a noncharacter);
 * - lav_add_mapping: HAVE (glyph g lists v as a single already), SIZE (the new font would be over 1,048,576 bytes), ROOM (the buffer is
 *   shorter than the new font; place: the new length);
 * - lav_drop_mapping: NOT_THERE (glyph g does not list v as a single; in a sequence it may. A noncharacter is never there).
 */

/* Adds value v to glyph g, behind its other singles and before its sequences. */
lav_number lav_add_mapping(uint8_t *buffer, size_t buffer_len, size_t len, size_t g, uint32_t v);

/* Drops the first listing of value v as a single of glyph g; where it is listed twice, the other one stays. */
lav_number lav_drop_mapping(uint8_t *buffer, size_t buffer_len, size_t len, size_t g, uint32_t v);

/*
 * What differs between two fonts, of any kinds: so many pairs of numbers at the front of the lent buffer `pairs`, each a kind
 * (LAV_ONLY_IN_FIRST to LAV_TABLE_DIFFERS) and a glyph. The answer's `count` is that of the pairs, so 2 * count numbers are written; other
 * numbers in the buffer stay. `pairs_len` counts numbers. The count is 0 exactly where the fonts agree in glyph count, presence of a table,
 * metrics, pixels and items.
 *
 * - Where just one font has a Unicode table, the pair (LAV_TABLE_DIFFERS, 0) comes first, and descriptions are not compared.
 * - Then by glyph number, and by kind within one glyph. A number below both counts has no pair, one, or two: LAV_METRICS_DIFFER or
 *   LAV_PIXELS_DIFFER, and LAV_ITEMS_DIFFER. Each other number has LAV_ONLY_IN_FIRST or LAV_ONLY_IN_SECOND alone.
 * - Glyphs of PSF1 and PSF2 have the metrics (height, 0, 0, width, width). Two missing glyphs agree (vfont2 entries of size 0), whatever
 *   their other fields are. Values are compared as numbers, so PSF1 may agree with PSF2. Bits after a row's last pixel, addresses, the kind
 *   of file and its header's size do not count.
 *
 * Two fonts have no more pairs than glyphs together, so 2 * 8192 numbers are always enough. With room for two numbers for each glyph of both
 * fonts the pairs are written in one pass over the fonts; with less room they are counted in one pass and, where there are any, written in
 * another. To learn how many numbers are needed, lend a buffer of length 0, with the address of any uint32_t: ROOM gives it as its place, or
 * the count is 0. A refused call writes nothing.
 *     lav_differences_answer d = lav_differences(old, old_len, new, new_len, pairs, 2 * 8192);
 *     if (d.refusal.number) return refused(d.font, d.refusal);
 *     for (size_t i = 0; i < d.count; i++) report(pairs[2 * i], pairs[2 * i + 1]);
 *
 * Refusals, tried in this order: 1 to 12 of the first font (`font` is 1), 1 to 12 of the second (`font` is 2), ROOM (`font` is 0; place:
 * the count of numbers needed).
 */
lav_differences_answer lav_differences(const uint8_t *first, size_t first_len, const uint8_t *second, size_t second_len, uint32_t *pairs,
                                       size_t pairs_len);

/*
 * A font that arrives piece by piece, over a serial line say, is checked as it comes: a loader is fed any number of pieces of any length,
 * in their order, and asked once at the end. It keeps none of the pieces: a program that wants the font stores them itself. The caller
 * owns the record, 144 bytes wherever it likes, and lends it to each call, which changes it; nothing is allocated.
 *     lav_loader loader = lav_loader_fresh();
 *     while ((length = receive(frame, sizeof frame)) > 0) lav_loader_feed(&loader, frame, length);
 *     lav_font font = lav_loader_close(&loader);                                   (font.refusal.number is 0 where the font is sound)
 * Pieces are judged at the close alone: a bad font is fed to its end like a good one. A loader serves one font; for the next one, and to
 * give one up, set the record to lav_loader_fresh() again. Two calls must not be lent the same record at once.
 *
 * Any 144 bytes may be lent. A record that the calls below did not make counts as closed where `closed` is not 0 or `held.len` is a number
 * that feeding never leaves: other than `total` where that is below 32, else above 17. Any other is taken at its word. No call touches
 * memory outside the record and the piece.
 */

/* A loader that has been fed nothing. */
lav_loader lav_loader_fresh(void);

/*
 * Feeds the next piece, also one of length 0 (`piece` is not NULL even then). The answer's number is 0: the piece is taken, whatever its
 * bytes are. Refusals: LATE (place 0, no glyph), the loader is closed and stays as it was.
 */
lav_refusal lav_loader_feed(lav_loader *loader, const uint8_t *piece, size_t piece_len);

/*
 * What lav_check answers on all pieces joined, in every member, and closes the loader, whatever the answer. Refusals: 1 to 12, as the
 * whole file's, with its place and its glyph; LATE (place 0, no glyph), the loader was closed before and stays as it was.
 */
lav_font lav_loader_close(lav_loader *loader);

#ifdef __cplusplus
}
#endif

#endif
