/* How much stack the engine's calls take: each runs on a thread whose stack was filled with a pattern before, and the bytes that were
 * touched are counted. Usage: stack BENCH.TXT HEADER RECORD CELLS, for each bench file to try. */
#include "bench_engine.h"

#include <pthread.h>
#include <stdio.h>
#include <stdlib.h>
#include <string.h>

#define ROOM (2u << 20)
#define PATTERN 0xA5

static uint8_t bench[BENCH_SIZE], state[BENCH_STATE_SIZE], row[BENCH_ROW_SIZE], sheet[BENCH_SHEET_SIZE(1)];
static uint8_t text[65536];
static size_t text_length;
static const char *header, *record, *cells;
static char readings[4096];
static uint64_t answer;

static void *nothing(void *unused) { return unused; }
static void *check(void *unused) { answer = bench_check(text, text_length, bench, sizeof bench); return unused; }
static void *fresh(void *unused) { answer = bench_fresh(bench, sizeof bench, state, sizeof state); return unused; }
static void *line(void *unused)
{
    answer = bench_line(bench, sizeof bench, state, sizeof state, (const uint8_t *)header, strlen(header), (const uint8_t *)record, strlen(record), row, sizeof row);
    return unused;
}
static void *names(void *unused) { answer = bench_header(bench, sizeof bench, row, sizeof row); return unused; }

/* The row of the record's sender. */
static void *shown(void *unused)
{
    answer = bench_row(bench, sizeof bench, state, sizeof state, (const uint8_t *)record, strcspn(record, " "), row, sizeof row);
    return unused;
}

static void *day(void *unused)
{
    answer = bench_sheet(bench, sizeof bench, state, sizeof state, (const uint8_t *)readings, strlen(readings), (const uint8_t *)cells,
                         strlen(cells), sheet, sizeof sheet);
    return unused;
}

/* The bytes of stack that a call touches, with what a thread takes by itself. */
static size_t touched(void *(*call)(void *))
{
    pthread_attr_t with;
    pthread_t thread;
    uint8_t *stack = NULL;
    size_t left = 0;
    if (posix_memalign((void **)&stack, 4096, ROOM))
        exit(2);
    memset(stack, PATTERN, ROOM);
    pthread_attr_init(&with);
    pthread_attr_setstack(&with, stack, ROOM);
    if (pthread_create(&thread, &with, call, NULL))
        exit(2);
    pthread_join(thread, NULL);
    while (left < ROOM && stack[left] == PATTERN)
        left++;
    free(stack);
    return ROOM - left;
}

static void say(const char *what, void *(*call)(void *), size_t base)
{
    size_t used = touched(call) - base;
    printf("  %-12s answer %u: %zu bytes\n", what, BENCH_NUMBER(answer), used);
}

int main(int count, char **words)
{
    FILE *file;
    size_t base = touched(nothing);
    if (count != 5 || !(file = fopen(words[1], "rb")))
        return 2;
    text_length = fread(text, 1, sizeof text, file);
    fclose(file);
    header = words[2];
    record = words[3];
    cells = words[4];
    snprintf(readings, sizeof readings, "%s\n%s", header, record);
    printf("%s, %zu bytes of text\n", words[1], text_length);
    say("bench_check", check, base);
    say("bench_fresh", fresh, base);
    say("bench_line", line, base);
    say("bench_header", names, base);
    say("bench_row", shown, base);
    bench_fresh(bench, sizeof bench, state, sizeof state); /* from which the sheet's line is a new one */
    say("bench_sheet", day, base);
    return 0;
}
