/* A short program to copy: it checks a bench file, then gives each line of a file of readings to the engine and prints the rows; with
 * cells, also the day sheet. Each line is sent twice, as by a controller that gets no answer in time: nothing is stored twice.
 *
 *     cc -Iinclude rows.c libengine.a -o rows
 *     ./rows bench.txt readings.txt
 *     ./rows bench.txt readings.txt 's.pos k.keep'
 */
#include "bench_engine.h"

#include <stdio.h>
#include <stdlib.h>
#include <string.h>

/* The caller lends the memory for bench, state and row, of the stated sizes at least. The morning's state is kept for the day sheet. */
static uint8_t bench[BENCH_SIZE];
static uint8_t state[BENCH_STATE_SIZE], morning[BENCH_STATE_SIZE];
static uint8_t row[BENCH_ROW_SIZE];

struct bytes {
    uint8_t *start;
    size_t length;
};

static struct bytes read_file(const char *path)
{
    struct bytes file = {NULL, 0};
    size_t room = 0, got;
    FILE *from = fopen(path, "rb");
    if (!from) {
        perror(path);
        exit(2);
    }
    do {
        room = 2 * room + 4096;
        file.start = realloc(file.start, room);
        if (!file.start) {
            fprintf(stderr, "no memory for %s\n", path);
            exit(2);
        }
        got = fread(file.start + file.length, 1, room - file.length, from);
        file.length += got;
    } while (file.length == room);
    fclose(from);
    return file;
}

/* Takes the next line off the front of what is left; a last line feed opens no further line. Returns 0 at the end. */
static int next_line(struct bytes *rest, struct bytes *line)
{
    uint8_t *feed;
    if (rest->length == 0)
        return 0;
    feed = memchr(rest->start, '\n', rest->length);
    line->start = rest->start;
    line->length = feed ? (size_t)(feed - rest->start) : rest->length;
    rest->start += line->length + (feed ? 1 : 0);
    rest->length -= line->length + (feed ? 1 : 0);
    return 1;
}

/* The engine's side: one call for each line that arrives. */
static uint64_t take_line(struct bytes names, struct bytes line)
{
    return bench_line(bench, sizeof bench, state, sizeof state, names.start, names.length, line.start, line.length, row, sizeof row);
}

/* A controller's side. Its lines begin with its name and its own next number, whatever the others are at. Here its first answer is always
 * lost: it has waited in vain, cannot tell whether its line or the answer went astray, and sends the very same line again, with the same
 * number. If the line had arrived, this one changes no byte of the state and gives the same row, even after lines of other controllers; if
 * not, it is taken now. Only then comes the next number. (One that has forgotten its number asks bench_row for its last line.) */
static uint64_t send_line(struct bytes names, struct bytes line)
{
    static uint8_t first_row[BENCH_ROW_SIZE], first_state[BENCH_STATE_SIZE];
    uint64_t first, again;
    first = take_line(names, line);
    memcpy(first_row, row, sizeof row);
    memcpy(first_state, state, sizeof state);
    again = take_line(names, line);
    if (again != first || memcmp(row, first_row, sizeof row) != 0 || memcmp(state, first_state, sizeof state) != 0) {
        fprintf(stderr, "a line that was sent again was stored twice\n");
        exit(1);
    }
    return again;
}

/* An answer of 0 in its low 8 bits: the call did its work, and the bits above give the length of the row it wrote.
 * Any other number: the call was refused and changed no byte; for lines the number is all there is to say. */
static void print_row(uint64_t answer)
{
    if (BENCH_NUMBER(answer) == BENCH_ACCEPTED) {
        fwrite(row, 1, BENCH_REST(answer), stdout);
        putchar('\n');
    } else {
        printf("refused %u\n", BENCH_NUMBER(answer));
    }
}

/* The day sheet: the text of a whole day, names and lines as they came, is run on from the state that the day began with. The size of the
 * memory for it depends on the line feeds in the text. Refused by 41: the cells; by 22: the names. */
static void print_sheet(struct bytes day, const char *cells)
{
    size_t feeds = 0, size;
    uint8_t *sheet;
    uint64_t answer;
    for (size_t i = 0; i < day.length; i++)
        feeds += day.start[i] == '\n';
    size = BENCH_SHEET_SIZE(feeds);
    sheet = malloc(size);
    if (!sheet) {
        fprintf(stderr, "no memory for the sheet\n");
        exit(2);
    }
    answer = bench_sheet(bench, sizeof bench, morning, sizeof morning, day.start, day.length, (const uint8_t *)cells, strlen(cells), sheet, size);
    if (BENCH_NUMBER(answer) == BENCH_ACCEPTED)
        fwrite(sheet, 1, BENCH_REST(answer), stdout);
    else
        printf("refused %u\n", BENCH_NUMBER(answer));
    free(sheet);
}

int main(int count, char **arguments)
{
    struct bytes text, day, rest, line, names = {(uint8_t *)"", 0}, nothing = {(uint8_t *)"", 0};
    unsigned long lines = 0;
    uint64_t answer;
    if (count != 3 && count != 4) {
        fprintf(stderr, "usage: %s BENCH READINGS [CELLS]\n", arguments[0]);
        return 2;
    }
    text = read_file(arguments[1]);
    day = read_file(arguments[2]);
    rest = day;

    /* Once per bench file. If it is refused (11 to 18, 44), the bits above the number are the offset of the fault in the text. */
    answer = bench_check(text.start, text.length, bench, sizeof bench);
    if (BENCH_NUMBER(answer) != BENCH_ACCEPTED) {
        printf("refused %u %zu\n", BENCH_NUMBER(answer), BENCH_REST(answer));
        return 1;
    }
    /* Once per run, and after any edit of the bench file: a state belongs to its text. From now on leave bench and state alone between calls:
     * the engine refuses by 32 or 33 what is none. */
    bench_fresh(bench, sizeof bench, state, sizeof state);
    memcpy(morning, state, sizeof state);

    /* The first line names the columns, after `by n`; it is handed to every call, and each call may refuse it by 22. To learn of that before
     * any values are there, values of length 0 are sent: they are always refused, by 22 if the names are ill formed, else by 21. */
    next_line(&rest, &names);
    answer = take_line(names, nothing);
    if (BENCH_NUMBER(answer) == BENCH_NAMES_ILL_FORMED) {
        print_row(answer);
        return 1;
    }
    print_row(bench_header(bench, sizeof bench, row, sizeof row));

    /* Each further line is one cycle. A refused line (21, 43, 42, 23, 24, 25) does not count: correct it and send it again. */
    for (; next_line(&rest, &line); lines++)
        print_row(send_line(names, line));
    if (count == 4)
        print_sheet(day, arguments[3]);
    fprintf(stderr, "%lu lines, each sent twice: the same answers, rows and states\n", lines);
    return 0;
}
