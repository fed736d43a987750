/* calls FOLDER: CPU time of one call of the archive. bench_line over the readings of the three benches, header and record given each time;
 * bench_check, and bench_line under an ill-formed header, on texts of some sizes. Prints NAME, the median, least and most of the rounds in
 * microseconds a call, and a sum of the rows, which is the second interpreter's too. */
#define _POSIX_C_SOURCE 199309L
#include "bench_engine.h"
#include <stdio.h>
#include <stdlib.h>
#include <string.h>
#include <time.h>

enum { ROUNDS = 15, TEXT = 40000, READINGS = 16 << 20 };

static uint8_t bench[BENCH_SIZE], state[BENCH_STATE_SIZE], row[BENCH_ROW_SIZE];
static uint8_t text[TEXT], readings[READINGS];

static size_t load(const char *folder, const char *name, uint8_t *into, size_t room)
{
    char path[4096];
    snprintf(path, sizeof path, "%s/%s", folder, name);
    FILE *file = fopen(path, "rb");
    if (!file) {
        perror(path);
        exit(1);
    }
    size_t got = fread(into, 1, room, file);
    fclose(file);
    return got;
}

static double microseconds(void)
{
    struct timespec t;
    clock_gettime(CLOCK_THREAD_CPUTIME_ID, &t);
    return (double)t.tv_sec * 1e6 + (double)t.tv_nsec / 1e3;
}

static int by_size(const void *a, const void *b)
{
    double x = *(const double *)a, y = *(const double *)b;
    return (x > y) - (x < y);
}

static void report(const char *name, double *times, uint64_t sum)
{
    qsort(times, ROUNDS, sizeof *times, by_size);
    printf("%s %.3f %.3f %.3f %016llx\n", name, times[ROUNDS / 2], times[0], times[ROUNDS - 1], (unsigned long long)sum);
}

/* FNV-1a over the bytes of a row. */
static uint64_t summed(uint64_t sum, const uint8_t *bytes, size_t length)
{
    for (size_t i = 0; i < length; i++)
        sum = (sum ^ bytes[i]) * 1099511628211u;
    return sum;
}

static uint64_t sink;

/* A round is a run from the fresh state over the first `most` lines. */
static void line_calls(const char *folder, const char *name, int most)
{
    char file[64], label[64];
    double times[ROUNDS];
    snprintf(file, sizeof file, "%s/bench.txt", name);
    size_t length = load(folder, file, text, TEXT);
    snprintf(file, sizeof file, "%s/readings.txt", name);
    size_t size = load(folder, file, readings, READINGS);
    uint8_t *feed = memchr(readings, '\n', size);
    if (!feed || BENCH_NUMBER(bench_check(text, length, bench, sizeof bench)) != 0) {
        fprintf(stderr, "%s: refused, or no readings\n", name);
        exit(1);
    }
    size_t names = (size_t)(feed - readings);
    uint64_t sum = 14695981039346656037u;
    for (int round = -1; round < ROUNDS; round++) { /* the first one sums the rows and is not timed */
        size_t at = names + 1;
        int calls = 0;
        bench_fresh(bench, sizeof bench, state, sizeof state);
        double from = microseconds();
        while (at < size && calls < most) {
            uint8_t *end = memchr(readings + at, '\n', size - at);
            size_t record = (end ? (size_t)(end - readings) : size) - at;
            uint64_t answer = bench_line(bench, sizeof bench, state, sizeof state, readings, names, readings + at, record, row, sizeof row);
            sink += answer;
            if (round < 0 && BENCH_NUMBER(answer) == 0)
                sum = summed(sum, row, BENCH_REST(answer));
            at += record + 1;
            calls++;
        }
        if (round >= 0)
            times[round] = (microseconds() - from) / calls;
    }
    snprintf(label, sizeof label, "line-%s", name);
    report(label, times, sum);
}

/* The check of a text, and a line under a header that is none: it is refused by 22 once the text is checked and its names are resolved. */
static void check_calls(const char *folder, const char *name, const char *file, int calls)
{
    static const uint8_t no_header[] = {'x'};
    char label[64];
    double times[ROUNDS];
    size_t length = load(folder, file, text, TEXT);
    if (BENCH_NUMBER(bench_check(text, length, bench, sizeof bench)) != 0) {
        fprintf(stderr, "%s is refused\n", name);
        exit(1);
    }
    for (int round = 0; round < ROUNDS; round++) {
        double from = microseconds();
        for (int i = 0; i < calls; i++)
            sink += bench_check(text, length, bench, sizeof bench);
        times[round] = (microseconds() - from) / calls;
    }
    snprintf(label, sizeof label, "check-%s", name);
    report(label, times, 0);
    bench_fresh(bench, sizeof bench, state, sizeof state);
    for (int round = 0; round < ROUNDS; round++) {
        double from = microseconds();
        for (int i = 0; i < calls; i++)
            sink += bench_line(bench, sizeof bench, state, sizeof state, no_header, 1, no_header, 1, row, sizeof row);
        times[round] = (microseconds() - from) / calls;
    }
    snprintf(label, sizeof label, "refused-22-%s", name);
    report(label, times, 0);
}

int main(int count, char **arguments)
{
    if (count != 2)
        return 2;
    line_calls(arguments[1], "pedal", 10000);
    line_calls(arguments[1], "usual", 5000);
    line_calls(arguments[1], "heavy", 20);
    check_calls(arguments[1], "usual", "usual/bench.txt", 1000);
    check_calls(arguments[1], "1k", "check/1k.txt", 2000);
    check_calls(arguments[1], "32k", "check/32k.txt", 50);
    return sink == 1;
}
