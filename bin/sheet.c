/* Prints the day sheet of the folder that it is run in, from bench.txt and readings.txt and a fresh state: sheet CELLS. A refusal is
 * printed in the sheet's place, as the runner does. bin/bench builds it, calls it, and explains a refusal.
 *
 * Status: 0 the sheet or a refusal is printed; 2 bad usage; 3 it could not be. What could not be done, and that a sheet lacks lines, is told on standard
 * error. */
#include "bench_engine.h"

#include <errno.h>
#include <stdio.h>
#include <stdlib.h>
#include <string.h>

/* One byte more than a bench file may have is enough to have it refused, however long it is. */
#define TEXT_MOST (BENCH_LONGEST_TEXT + 1)

/* A row with its line feed, and where the last digit of a line's number stands in it. */
enum { ROW_BYTES = 81, NUMBER_LAST = 9 };

struct bytes {
    uint8_t *start;
    size_t length;
};

static uint8_t bench[BENCH_SIZE];
static uint8_t state[BENCH_STATE_SIZE];

static void fail(const char *what, const char *why)
{
    fprintf(stderr, "sheet: %s: %s\n", what, why);
    exit(3);
}

/* What a file holds, of a longer one the first `most` bytes. A missing file is empty; one that cannot be read is not. */
static struct bytes read_file(const char *path, size_t most)
{
    struct bytes file = {NULL, 0};
    size_t room = 0;
    FILE *from = fopen(path, "rb");
    if (!from && errno != ENOENT)
        fail(path, strerror(errno));
    do {
        room = room < most / 2 - 4096 ? 2 * room + 4096 : most;
        file.start = realloc(file.start, room);
        if (!file.start)
            fail(path, "no memory for so long a file");
        if (from)
            file.length += fread(file.start + file.length, 1, room - file.length, from);
    } while (file.length == room && room < most);
    if (from && ferror(from))
        fail(path, strerror(errno));
    if (from)
        fclose(from);
    return file;
}

static size_t line_feeds(struct bytes text)
{
    size_t count = 0;
    for (size_t i = 0; i < text.length; i++)
        count += text.start[i] == '\n';
    return count;
}

/* What is printed has arrived only when standard output could be closed. */
static int finish(void)
{
    if (ferror(stdout) || fclose(stdout) != 0)
        fail("standard output", "not all could be written");
    return 0;
}

/* Asks for the sheet of these readings in memory of just the stated size, and answers as the call does. */
static uint64_t ask(struct bytes readings, const char *cells, struct bytes *sheet)
{
    size_t feeds = line_feeds(readings);
    sheet->length = BENCH_SHEET_SIZE(feeds);
    sheet->start = feeds <= (SIZE_MAX - BENCH_SHEET_SIZE(0)) / BENCH_SHEET_SIZE(1) ? malloc(sheet->length) : NULL;
    if (!sheet->start)
        fail("readings.txt", "no memory for the sheet of so many lines");
    return bench_sheet(bench, sizeof bench, state, sizeof state, readings.start, readings.length, (const uint8_t *)cells, strlen(cells),
                       sheet->start, sheet->length);
}

/* A line that is on the sheet has a row with its number there, other rows have spaces in its place. */
static size_t lines_shown(struct bytes sheet)
{
    size_t count = 0;
    for (size_t i = 0; i + ROW_BYTES <= sheet.length; i += ROW_BYTES)
        count += sheet.start[i + NUMBER_LAST] != ' ';
    return count;
}

/* A sheet passes over lines that are refused or sent again: one that lacks some must not be taken for a whole one. */
static void tell_lacking(struct bytes readings, struct bytes sheet)
{
    size_t feeds = line_feeds(readings), shown = lines_shown(sheet);
    size_t lines = readings.length > 0 && readings.start[readings.length - 1] != '\n' ? feeds : feeds - 1; /* after the line of names */
    if (shown < lines)
        fprintf(stderr, "readings.txt: %zu of %zu lines are on the sheet: the others were refused, or sent again\n", shown, lines);
}

static int refused(unsigned number)
{
    printf("refused %u\n", number);
    return finish();
}

int main(int count, char **words)
{
    struct bytes text, readings = {(uint8_t *)"", 0}, sheet;
    uint64_t answer;
    if (count != 2) {
        fprintf(stderr, "usage: sheet CELLS\n");
        return 2;
    }
    text = read_file("bench.txt", TEXT_MOST);
    answer = bench_check(text.start, text.length, bench, sizeof bench);
    if (BENCH_NUMBER(answer) != 0) {
        printf("refused %u %zu\n", BENCH_NUMBER(answer), BENCH_REST(answer));
        return finish();
    }
    bench_fresh(bench, sizeof bench, state, sizeof state);

    /* Cells are refused before any line is read. Asking with no readings tells it at once, even if readings.txt is a pipe that is still
     * to be written. */
    answer = ask(readings, words[1], &sheet);
    if (BENCH_NUMBER(answer) == BENCH_CELLS_REFUSED)
        return refused(BENCH_CELLS_REFUSED);
    free(sheet.start);

    readings = read_file("readings.txt", SIZE_MAX);
    answer = ask(readings, words[1], &sheet);
    if (BENCH_NUMBER(answer) != 0)
        return refused(BENCH_NUMBER(answer));
    fwrite(sheet.start, 1, BENCH_REST(answer), stdout);
    sheet.length = BENCH_REST(answer);
    finish();
    tell_lacking(readings, sheet);
    return 0;
}
