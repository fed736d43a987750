/* Prints how bench_sheet answers for the files of a folder: the number, a line feed, and the sheet.
 *
 *     sheets FOLDER
 *
 * FOLDER has bench.txt, before.txt (names and lines that bring the fresh state to the lent one, or nothing), readings.txt and cells.txt.
 * sheets.py makes such folders of the stored cases and compares. */
#include "bench_engine.h"

#include <stdio.h>
#include <stdlib.h>
#include <string.h>

static uint8_t bench[BENCH_SIZE];
static uint8_t state[BENCH_STATE_SIZE];
static uint8_t row[BENCH_ROW_SIZE];

struct bytes {
    uint8_t *start;
    size_t length;
};

static void *room(size_t length)
{
    void *memory = malloc(length);
    if (!memory) {
        fprintf(stderr, "no memory\n");
        exit(2);
    }
    return memory;
}

/* The whole file, in memory that ends where it ends. */
static struct bytes read_file(const char *folder, const char *name)
{
    struct bytes file;
    char path[4096];
    FILE *from;
    long length;
    snprintf(path, sizeof path, "%s/%s", folder, name);
    from = fopen(path, "rb");
    if (!from || fseek(from, 0, SEEK_END) != 0 || (length = ftell(from)) < 0 || fseek(from, 0, SEEK_SET) != 0) {
        perror(path);
        exit(2);
    }
    file.length = (size_t)length;
    file.start = room(file.length > 0 ? file.length : 1);
    if (fread(file.start, 1, file.length, from) != file.length) {
        perror(path);
        exit(2);
    }
    fclose(from);
    return file;
}

/* Takes the next line off the front of what is left. Returns 0 at the end. */
static int next_line(struct bytes *rest, struct bytes *line)
{
    uint8_t *feed;
    if (rest->length == 0)
        return 0;
    feed = memchr(rest->start, '\n', rest->length);
    line->start = rest->start;
    line->length = feed ? (size_t)(feed - rest->start) : rest->length;
    rest->start += line->length + (feed ? 1 : 0);
    rest->length -= line->length + (feed ? 1 : 0);
    return 1;
}

/* Brings the fresh state to the one that is lent; refused lines leave it where it is. */
static void run_on(struct bytes before)
{
    struct bytes names, line;
    if (!next_line(&before, &names))
        return;
    while (next_line(&before, &line))
        bench_line(bench, sizeof bench, state, sizeof state, names.start, names.length, line.start, line.length, row, sizeof row);
}

static size_t line_feeds(struct bytes text)
{
    size_t count = 0;
    for (size_t i = 0; i < text.length; i++)
        count += text.start[i] == '\n';
    return count;
}

int main(int count, char **words)
{
    struct bytes text, readings, cells, sheet;
    uint64_t answer;
    if (count != 2) {
        fprintf(stderr, "usage: %s FOLDER\n", words[0]);
        return 2;
    }
    text = read_file(words[1], "bench.txt");
    readings = read_file(words[1], "readings.txt");
    cells = read_file(words[1], "cells.txt");
    if (BENCH_NUMBER(bench_check(text.start, text.length, bench, sizeof bench)) != 0
        || BENCH_NUMBER(bench_fresh(bench, sizeof bench, state, sizeof state)) != 0) {
        fprintf(stderr, "%s/bench.txt is refused\n", words[1]);
        return 2;
    }
    run_on(read_file(words[1], "before.txt"));
    sheet.length = BENCH_SHEET_SIZE(line_feeds(readings));
    sheet.start = room(sheet.length);
    answer = bench_sheet(bench, sizeof bench, state, sizeof state, readings.start, readings.length, cells.start, cells.length, sheet.start,
                         sheet.length);
    printf("%u\n", BENCH_NUMBER(answer));
    fwrite(sheet.start, 1, BENCH_REST(answer), stdout);
    return ferror(stdout) || fclose(stdout) != 0 ? 2 : 0;
}
