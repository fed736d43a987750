/* Compares the two readers on the texts that are given as arguments: the same answers, also on damaged texts, and then their times. Built with
 * BEFORE, it has the proved reader of another archive beside them, whose times are taken in the same rounds. */
#define _POSIX_C_SOURCE 199309L
#include "readers.h"
#include <stdio.h>
#include <stdlib.h>
#include <string.h>
#include <time.h>

enum { ROOM = 40000, DAMAGED = 4000, ROUNDS = 2001 };

typedef uint64_t reader(const uint8_t *, size_t, uint8_t *, size_t, uint16_t *, size_t, uint8_t *, size_t, uint32_t *, size_t);
typedef struct {
    uint8_t classes[ROOM];
    uint16_t offsets[ROOM];
    uint8_t lengths[ROOM];
    uint32_t values[ROOM];
} columns;
static columns ours, theirs;

static uint64_t run(reader *r, columns *c, const uint8_t *text, size_t n) {
    return r(text, n, c->classes, ROOM, c->offsets, ROOM, c->lengths, ROOM, c->values, ROOM);
}

static uint64_t seed = 88172645463325252ull;
static uint32_t below(uint32_t n) {
    seed ^= seed << 13;
    seed ^= seed >> 7;
    seed ^= seed << 17;
    return (uint32_t)((seed >> 11) % n);
}

static unsigned long compared, by_code[32];

/* Both readers on one text: the same answer and, of a file, the same rows. */
static void same(const uint8_t *text, size_t n, const char *what) {
    uint64_t a = run(measure_text, &ours, text, n), b = run(plain_read, &theirs, text, n);
    size_t rows = (a & 255) == 0 ? a >> 8 : 0;
    if (a != b || memcmp(ours.classes, theirs.classes, rows) || memcmp(ours.offsets, theirs.offsets, rows * 2)
        || memcmp(ours.lengths, theirs.lengths, rows) || memcmp(ours.values, theirs.values, rows * 4)) {
        printf("%s: different answers: %llu at %llu, and %llu at %llu\n", what, (unsigned long long)(a & 255), (unsigned long long)(a >> 8),
               (unsigned long long)(b & 255), (unsigned long long)(b >> 8));
        fwrite(text, 1, n, stdout);
        exit(1);
    }
    compared++;
    by_code[a & 31]++;
}

static const char *const pieces[] = {
    "interface", "attribute", "event", "action", "entity", "rules", "when", "rank", "from", "with", "value", "changed", "trigger", "on", "end",
    "and", "or", "true", "false", "whole", "bool", "real", "{", "}", "(", ")", ":", "=", ",", ".", "+", "-", "*", "/", "a", "End", "0",
    "2147483647", "2147483648", "00000000000", "1r", "1real", "abcdefghijklmnopqrstuvwx", "abcdefghijklmnopqrstuvwxy", "# c\n", "# \x7f", "_",
    "((((((((((((((((", "- - - - - - - - - - - - - - - -",
};

/* One change: a byte, a part cut out, moved or doubled, a piece put in or in the place of a word, an early end. */
static size_t damage(uint8_t *text, size_t n) {
    if (n == 0) return 0;
    size_t at = below((uint32_t)n), part = 1 + below(12), k;
    uint8_t held[64];
    if (part > n - at) part = n - at;
    switch (below(7)) {
    case 0:
        text[at] = (uint8_t)below(256);
        return n;
    case 1:
        text[at] = " \n(){}:=,.+-*/ra09_#"[below(20)];
        return n;
    case 2:
        memmove(text + at, text + at + part, n - at - part);
        return n - part;
    case 3:
        memcpy(held, text + at, part);
        memmove(text + at + part, text + at, n - at);
        memcpy(text + at, held, part);
        return n + part;
    case 4:
        return at;
    default: {
        /* from one blank to the next, a word is another one */
        while (at > 0 && text[at - 1] != ' ') at--;
        for (k = at; k < n && text[k] != ' ' && text[k] != '\n'; k++) {}
        const char *piece = pieces[below(sizeof pieces / sizeof *pieces)];
        size_t m = strlen(piece);
        if (below(3) == 0) k = at;
        memmove(text + at + m + 1, text + k, n - k);
        memcpy(text + at, piece, m);
        text[at + m] = ' ';
        return n - (k - at) + m + 1;
    }
    }
}

static double microseconds(void) {
    struct timespec t;
    clock_gettime(CLOCK_THREAD_CPUTIME_ID, &t);
    return (double)t.tv_sec * 1e6 + (double)t.tv_nsec / 1e3;
}

#ifdef BEFORE
static columns former;
#endif

static volatile uint64_t sink;
static double once(reader *r, columns *c, const uint8_t *text, size_t n, int calls) {
    double from = microseconds();
    for (int i = 0; i < calls; i++) sink += run(r, c, text, n);
    return (microseconds() - from) / calls;
}

static int by_size(const void *a, const void *b) {
    double x = *(const double *)a, y = *(const double *)b;
    return (x > y) - (x < y);
}

static double median(double *times) {
    qsort(times, ROUNDS, sizeof *times, by_size);
    return times[ROUNDS / 2];
}

static uint8_t text[ROOM * 2], copy[ROOM * 2];

int main(int argc, char **argv) {
    for (int i = 1; i < argc; i++) {
        FILE *f = fopen(argv[i], "rb");
        if (!f) { perror(argv[i]); return 1; }
        size_t n = fread(text, 1, ROOM, f);
        fclose(f);
        if ((run(measure_text, &ours, text, n) & 255) != 0) { printf("%s is refused\n", argv[i]); return 1; }
        same(text, n, argv[i]);
        for (int k = 0; k < DAMAGED; k++) {
            memcpy(copy, text, n);
            size_t m = n;
            for (uint32_t changes = 1 + below(3); changes > 0 && m < ROOM - 100; changes--) m = damage(copy, m);
            same(copy, m, "a damaged text");
        }
    }
    /* texts that are too long, and columns that are too short */
    memset(copy, ' ', ROOM);
    for (size_t n = 32766; n < 32772; n++) same(copy, n, "a text of blanks");
    for (int which = 0; which < 5; which++) {
        size_t l[4] = {10, 10, 10, 10};
        if (which < 4) l[which] = 8;
        uint64_t a = measure_text((const uint8_t *)"rules end", 9, ours.classes, l[0], ours.offsets, l[1], ours.lengths, l[2], ours.values, l[3]);
        uint64_t b = plain_read((const uint8_t *)"rules end", 9, theirs.classes, l[0], theirs.offsets, l[1], theirs.lengths, l[2], theirs.values, l[3]);
        if (a != b || a != (which < 4 ? 31 : 512)) { printf("short columns: different answers\n"); return 1; }
        compared++;
        by_code[a & 31]++;
    }
    printf("%lu texts, the same answers: %lu files, %lu times 11, %lu times 12, %lu times 13, %lu times 31\n", compared, by_code[0], by_code[11],
           by_code[12], by_code[13], by_code[31]);

    printf("%-12s %7s %8s %10s %10s %7s\n", "text", "bytes", "tokens", "Rattle us", "plain C us", "ratio");
    for (int i = 1; i < argc; i++) {
        FILE *f = fopen(argv[i], "rb");
        size_t n = fread(text, 1, ROOM, f);
        fclose(f);
        int calls = n < 4096 ? 50 : 1;
        static double a[ROUNDS], b[ROUNDS];
#ifdef BEFORE
        static double c[ROUNDS];
#endif
        for (int k = 0; k < ROUNDS; k++) {
            a[k] = once(measure_text, &ours, text, n, calls);
            b[k] = once(plain_read, &theirs, text, n, calls);
#ifdef BEFORE
            c[k] = once(before_text, &former, text, n, calls);
#endif
        }
        double plain = median(b), now = median(a);
        const char *title = strrchr(argv[i], '/') ? strrchr(argv[i], '/') + 1 : argv[i];
        printf("%-12s %7zu %8llu %10.2f %10.2f %7.2f\n", title, n, (unsigned long long)(run(measure_text, &ours, text, n) >> 8), now, plain, now / plain);
#ifdef BEFORE
        printf("%-12s %7s %8s %10.2f %10s %7.2f\n", "  before", "", "", median(c), "", median(c) / plain);
#endif
    }
    return 0;
}
