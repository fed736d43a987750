/* Prints the rows of the readings on standard input, run on from a state, for the bench.txt of the folder that it is run in, and leaves the
 * new state: resume [-f] OLD NEW. OLD is a state file; if there is none, the state is fresh. Rows and refusals are printed as the runner does;
 * a state of another text is refused by 33. bin/bench --state builds it, calls it, and explains a refusal.
 *
 * The new state is written to NEW when all rows are written; whoever calls it renames NEW. With -f the readings come from devices that
 * wait for their rows: the state takes the place of OLD before the rows of the lines that it holds are written, and an unfinished line at
 * the end is none.
 *
 * A state file has the tag BENCH_STATE_TAG and then the state.
 *
 * Status: 0 all is done; 2 bad usage; 3 something could not be read or written, which is told on standard error. */
#define _POSIX_C_SOURCE 200809L
#include "bench_engine.h"

#include <errno.h>
#include <fcntl.h>
#include <signal.h>
#include <stdio.h>
#include <stdlib.h>
#include <string.h>
#include <unistd.h>

/* One byte more than a bench file may have, and than a line of names: enough to have it refused, however long it is. */
#define TEXT_MOST (BENCH_LONGEST_TEXT + 1)
#define LINE_MOST (BENCH_LONGEST_NAMES + 1)

#define CHUNK 65536u
#define STANDARD_INPUT 0
#define STANDARD_OUTPUT 1

static uint8_t text[TEXT_MOST];
static uint8_t bench[BENCH_SIZE];
static uint8_t state[BENCH_STATE_SIZE], saved[BENCH_STATE_SIZE];
static uint8_t names[LINE_MOST], line[LINE_MOST];
static size_t names_length, line_length;
static int in_names = 1; /* the line of names is still to come */

static struct {
    const char *old, *next;
    int follow;
    int is_saved; /* the state stands in the file at `old`, as it is in `saved` */
} files;

/* Rows wait here until they are written. */
static struct {
    uint8_t *start;
    size_t length, room;
} rows;

static void fail(const char *what, const char *why)
{
    fprintf(stderr, "resume: %s: %s\n", what, why);
    exit(3);
}

static size_t read_some(int from, const char *name, uint8_t *bytes, size_t most)
{
    ssize_t got;
    do
        got = read(from, bytes, most);
    while (got < 0 && errno == EINTR);
    if (got < 0)
        fail(name, strerror(errno));
    return (size_t)got;
}

/* What a file holds, of a longer one the first `most` bytes. A missing file is empty; is_missing tells, if it is asked. */
static size_t read_file(const char *path, uint8_t *bytes, size_t most, int *is_missing)
{
    size_t length = 0, got;
    int from = open(path, O_RDONLY | O_CLOEXEC);
    if (is_missing)
        *is_missing = from < 0 && errno == ENOENT;
    if (from < 0 && errno == ENOENT)
        return 0;
    if (from < 0)
        fail(path, strerror(errno));
    do {
        got = read_some(from, path, bytes + length, most - length);
        length += got;
    } while (got > 0 && length < most);
    close(from);
    return length;
}

/* 0 if all bytes are written. */
static int write_bytes(int to, const uint8_t *bytes, size_t length)
{
    while (length > 0) {
        ssize_t put = write(to, bytes, length);
        if (put < 0 && errno == EINTR)
            continue;
        if (put < 0)
            return -1;
        bytes += put;
        length -= (size_t)put;
    }
    return 0;
}

static void write_rows(void)
{
    if (write_bytes(STANDARD_OUTPUT, rows.start, rows.length) != 0)
        fail("standard output", strerror(errno));
    rows.length = 0;
}

static void add_row(const uint8_t *bytes, size_t length)
{
    if (rows.room - rows.length < length + 1) {
        rows.room = 2 * rows.room + length + 1;
        rows.start = realloc(rows.start, rows.room);
        if (!rows.start)
            fail("rows", "no memory");
    }
    memcpy(rows.start + rows.length, bytes, length);
    rows.start[rows.length + length] = '\n';
    rows.length += length + 1;
}

static void add_refusal(unsigned number)
{
    char words[32];
    add_row((const uint8_t *)words, (size_t)snprintf(words, sizeof words, "refused %u", number));
}

static void add_answer(uint64_t answer, const uint8_t *row)
{
    if (BENCH_NUMBER(answer) != BENCH_ACCEPTED)
        add_refusal(BENCH_NUMBER(answer));
    else
        add_row(row, BENCH_REST(answer));
}

/* Prints what stands in place of all further rows. */
static int refuse(void)
{
    write_rows();
    return 0;
}

/* Whatever goes wrong, no part of a state is left at `next`. */
static void fail_to_save(int to)
{
    int why = errno;
    if (to >= 0)
        close(to);
    unlink(files.next);
    fail(files.next, strerror(why));
}

/* The state is on disk as a whole before it gets a name that counts. */
static void write_state(void)
{
    int to = open(files.next, O_WRONLY | O_CREAT | O_TRUNC | O_CLOEXEC, 0666);
    if (to < 0 || write_bytes(to, (const uint8_t *)BENCH_STATE_TAG, BENCH_STATE_TAG_SIZE) != 0 ||
        write_bytes(to, state, sizeof state) != 0 || fsync(to) != 0)
        fail_to_save(to);
    if (close(to) != 0)
        fail_to_save(-1);
}

/* That the folder has the new name must be on disk too. */
static void sync_folder(void)
{
    char *folder = strdup(files.old);
    char *slash = folder ? strrchr(folder, '/') : NULL;
    int descriptor;
    if (slash)
        slash[slash == folder] = '\0';
    descriptor = open(slash ? folder : ".", O_RDONLY | O_CLOEXEC);
    if (descriptor < 0 || fsync(descriptor) != 0)
        fail(files.old, strerror(errno));
    close(descriptor);
    free(folder);
}

static void replace_state(void)
{
    if (files.is_saved && memcmp(state, saved, sizeof state) == 0)
        return;
    write_state();
    if (rename(files.next, files.old) != 0)
        fail_to_save(-1);
    sync_folder();
    memcpy(saved, state, sizeof state);
    files.is_saved = 1;
}

static uint64_t take(const uint8_t *values, size_t length, uint8_t *row)
{
    return bench_line(bench, sizeof bench, state, sizeof state, names, names_length, values, length, row, BENCH_ROW_SIZE);
}

/* The line of names is refused by every call, or by none: number 0 is never taken. Returns 0 if it is refused. */
static int take_names(void)
{
    static uint8_t row[BENCH_ROW_SIZE];
    uint64_t answer;
    memcpy(names, line, line_length);
    names_length = line_length;
    in_names = 0;
    answer = take((const uint8_t *)"a 0", 3, row);
    if (BENCH_NUMBER(answer) == BENCH_NAMES_ILL_FORMED) {
        add_refusal(BENCH_NAMES_ILL_FORMED);
        return 0;
    }
    add_answer(bench_header(bench, sizeof bench, row, sizeof row), row);
    return 1;
}

/* The line that is kept has come to its end. Returns 0 if no further one is to be taken. */
static int end_line(void)
{
    static uint8_t row[BENCH_ROW_SIZE];
    int goes_on = 1;
    if (in_names)
        goes_on = take_names();
    else
        add_answer(take(line, line_length, row), row);
    line_length = 0;
    return goes_on;
}

/* Of a very long line so much is kept as shows that it is too long. */
static void keep(const uint8_t *bytes, size_t length)
{
    size_t room = sizeof line - line_length;
    memcpy(line + line_length, bytes, length < room ? length : room);
    line_length += length < room ? length : room;
}

/* Takes the lines that end in a chunk. Returns 0 if the line of names is refused. */
static int take_chunk(const uint8_t *chunk, size_t length)
{
    while (length > 0) {
        const uint8_t *feed = memchr(chunk, '\n', length);
        size_t part = feed ? (size_t)(feed - chunk) : length;
        keep(chunk, part);
        if (!feed)
            return 1;
        if (!end_line())
            return 0;
        chunk += part + 1;
        length -= part + 1;
    }
    return 1;
}

/* Returns 0 if the line of names is refused. */
static int take_readings(void)
{
    static uint8_t chunk[CHUNK];
    size_t got;
    while ((got = read_some(STANDARD_INPUT, "standard input", chunk, sizeof chunk)) > 0) {
        if (!take_chunk(chunk, got))
            return 0;
        if (files.follow && !in_names)
            replace_state();
        write_rows();
    }
    /* A last line feed is optional; an empty text has an empty line of names. */
    if (!files.follow && (line_length > 0 || in_names))
        return end_line();
    return 1;
}

static int has_tag(const uint8_t *file)
{
    return memcmp(file, BENCH_STATE_TAG, BENCH_STATE_TAG_SIZE) == 0;
}

/* One byte more than a state file has shows one that is too long. */
static void start_state(void)
{
    static uint8_t file[BENCH_STATE_TAG_SIZE + BENCH_STATE_SIZE + 1];
    int is_missing;
    size_t length = read_file(files.old, file, sizeof file, &is_missing);
    if (is_missing) {
        bench_fresh(bench, sizeof bench, state, sizeof state);
        return;
    }
    if (length != BENCH_STATE_TAG_SIZE + sizeof state || !has_tag(file))
        fail(files.old, "this is no state file");
    memcpy(state, file + BENCH_STATE_TAG_SIZE, sizeof state);
    memcpy(saved, state, sizeof state);
    files.is_saved = 1;
}

int main(int count, char **words)
{
    static uint8_t row[BENCH_ROW_SIZE];
    uint64_t answer;
    size_t length;
    files.follow = count == 4 && strcmp(words[1], "-f") == 0;
    if (count != 3 + files.follow) {
        fprintf(stderr, "usage: resume [-f] OLD NEW\n");
        return 2;
    }
    signal(SIGXFSZ, SIG_IGN); /* a limit of file sizes is told as a full disk is */
    files.old = words[1 + files.follow];
    files.next = words[2 + files.follow];

    length = read_file("bench.txt", text, sizeof text, NULL);
    answer = bench_check(text, length, bench, sizeof bench);
    if (BENCH_NUMBER(answer) != BENCH_ACCEPTED) {
        char refusal[64];
        add_row((const uint8_t *)refusal,
                (size_t)snprintf(refusal, sizeof refusal, "refused %u %zu", BENCH_NUMBER(answer), BENCH_REST(answer)));
        return refuse();
    }
    start_state();
    answer = bench_row(bench, sizeof bench, state, sizeof state, (const uint8_t *)"a", 1, row, sizeof row);
    if (BENCH_NUMBER(answer) != BENCH_ACCEPTED) {
        add_refusal(BENCH_NUMBER(answer));
        return refuse();
    }
    if (!take_readings())
        return refuse();
    if (files.follow && !in_names)
        replace_state();
    write_rows();
    if (!files.follow)
        write_state();
    return 0;
}
