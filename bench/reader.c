/*
 * The library's one reader of a UTF-8 value (utf8::read_value), alone. It is no call of the header: tools/bench makes its symbol in a copy of
 * the archive global, under the name `reader`, and this program calls it as the library itself does.
 *   reader BYTES          reads COUNT values of so many bytes, each once; callgrind counts the instructions of `reader`
 *   reader BYTES ROUNDS   prints the best time of that, in nanoseconds for a value
 * It ends with status 1 where a value or its length is not the one that was written.
 */
#include <stddef.h>
#include <stdint.h>
#include <stdio.h>
#include <stdlib.h>
#include <time.h>

#define COUNT 4096
/* the answer, a Result of a pair, as the compiled library passes it: variant 0 is a value and its length */
struct read { uint64_t variant; uint32_t value; size_t length; };
struct bytes { const uint8_t *first; size_t length; };
void reader(struct read *answer, const uint8_t *first, size_t length);

static uint8_t written[4 * COUNT];
static struct bytes part[COUNT]; /* from each value on */
static size_t each;
static volatile uint32_t kept;

/* value i of so many bytes */
static uint32_t value(size_t i) {
    static const uint32_t first[] = {0x20, 0x80, 0x1000, 0x10000}, many[] = {0x5F, 0x700, COUNT, COUNT};
    return first[each - 1] + i % many[each - 1];
}

static void write_value(uint8_t *at, uint32_t v) {
    static const uint8_t lead[] = {0, 0xC0, 0xE0, 0xF0};
    for (size_t k = each; k-- > 1; v >>= 6) at[k] = 0x80 + (v & 63);
    at[0] = lead[each - 1] + v;
}

static void read_all(void) {
    struct read r;
    uint32_t sum = 0;
    for (size_t i = 0; i < COUNT; i++) {
        reader(&r, part[i].first, part[i].length);
        sum += r.value;
    }
    kept = sum;
}

int main(int argc, char **argv) {
    each = argc > 1 ? (size_t)atoi(argv[1]) : 0;
    if (each < 1 || each > 4) return 2;
    for (size_t i = 0; i < COUNT; i++) {
        write_value(written + each * i, value(i));
        part[i].first = written + each * i;
        part[i].length = each * (COUNT - i);
    }
    if (argc == 2) {
        read_all();
        return 0;
    }
    for (size_t i = 0; i < COUNT; i++) {
        struct read r = {9, 0, 0};
        reader(&r, part[i].first, part[i].length);
        if (r.variant || r.value != value(i) || r.length != each) return 1;
    }
    double best = 1e9;
    for (int i = 0; i < atoi(argv[2]); i++) {
        struct timespec a, b;
        clock_gettime(CLOCK_MONOTONIC, &a);
        read_all();
        clock_gettime(CLOCK_MONOTONIC, &b);
        double took = (b.tv_sec - a.tv_sec) * 1e9 + (b.tv_nsec - a.tv_nsec);
        if (took < best) best = took;
    }
    printf("%.3f\n", best / COUNT);
    return 0;
}
