/* Calls the engine with memory that ends at a page nobody may touch, and again with memory that begins right after one.
 * Sizes are exact, or one byte less; refused calls must leave every byte; random bytes are lent as each argument. */
#define _DEFAULT_SOURCE
#include "bench_engine.h"

#include <stdio.h>
#include <stdlib.h>
#include <string.h>
#include <sys/mman.h>
#include <unistd.h>

/* Counting. */

static unsigned long passed, failed;

static void check(int holds, const char *what)
{
    if (holds) {
        passed++;
        return;
    }
    if (failed++ < 20)
        printf("failed: %s\n", what);
}

static void check_answer(uint64_t answer, unsigned number, size_t rest, const char *what)
{
    int holds = BENCH_NUMBER(answer) == number && BENCH_REST(answer) == rest;
    check(holds, what);
    if (!holds && failed <= 20)
        printf("  answered %u with %zu, not %u with %zu\n", BENCH_NUMBER(answer), BENCH_REST(answer), number, rest);
}

/* A region between two guarded pages; a slice of it is lent at its end or at its start. */

struct region {
    uint8_t *base;
    size_t bytes;
    uint8_t *copy;
    uint8_t *lent;
    size_t length;
};

static struct region text, bench, state, names, values, sender, row, readings, cells, sheet;
static struct region *const regions[] = {&text, &bench, &state, &names, &values, &sender, &row, &readings, &cells, &sheet};
#define REGIONS (sizeof regions / sizeof regions[0])
static int lend_at_start;

static void make(struct region *region, size_t least)
{
    size_t page = (size_t)sysconf(_SC_PAGESIZE);
    uint8_t *whole;
    region->bytes = (least + page - 1) / page * page;
    whole = mmap(NULL, region->bytes + 2 * page, PROT_READ | PROT_WRITE, MAP_PRIVATE | MAP_ANONYMOUS, -1, 0);
    region->copy = malloc(region->bytes);
    if (whole == MAP_FAILED || !region->copy || mprotect(whole, page, PROT_NONE) != 0
        || mprotect(whole + page + region->bytes, page, PROT_NONE) != 0) {
        perror("guarded memory");
        exit(2);
    }
    region->base = whole + page;
    memset(region->base, 0xa5, region->bytes);
}

static void lend(struct region *region, size_t length)
{
    region->length = length;
    region->lent = lend_at_start ? region->base : region->base + region->bytes - length;
}

/* Lends these bytes exactly. */
static void put(struct region *region, const void *bytes, size_t length)
{
    lend(region, length);
    if (length > 0)
        memcpy(region->lent, bytes, length);
}

static void put_text(struct region *region, const char *words)
{
    put(region, words, strlen(words));
}

static void save(void)
{
    for (size_t i = 0; i < REGIONS; i++)
        memcpy(regions[i]->copy, regions[i]->base, regions[i]->bytes);
}

static int same(const struct region *region)
{
    return memcmp(region->copy, region->base, region->bytes) == 0;
}

/* Whether nothing changed in any region but these two, which may be the same. */
static int all_same_but(const struct region *one, const struct region *other)
{
    for (size_t i = 0; i < REGIONS; i++)
        if (regions[i] != one && regions[i] != other && !same(regions[i]))
            return 0;
    return 1;
}

static int all_same(void)
{
    return all_same_but(NULL, NULL);
}

/* Whether nothing changed outside the first `written` bytes of what was lent. */
static int rest_same(const struct region *region, size_t written)
{
    size_t start = (size_t)(region->lent - region->base);
    return memcmp(region->copy, region->base, start) == 0
        && memcmp(region->copy + start + written, region->lent + written, region->bytes - start - written) == 0;
}

/* The calls on the regions. Each checks what holds for every answer. */

/* A state: four bytes for the bench text, the number of senders that it knows, two planes, and a part for each sender. A plane has a flag
 * and twelve cells of nine bytes for each entity, a part has the name's length, 24 bytes for the name, the sender's number and a plane. */
enum { MOST_ENTITIES = 32, MOST_SENDERS = 8, COUNT_AT = 4, PLANES_AT = 5, NAME_AT = 1, NUMBER_AT = 25, KEPT_AT = 29 };
#define PLANE(entities) (109u * (entities))
#define PART_AT(entities, place) (PLANES_AT + 2 * PLANE(entities) + (place) * (KEPT_AT + PLANE(entities)))

/* The entities of the bench at hand; the most that there can be, if it may be any bench. */
static size_t entities = MOST_ENTITIES;

/* How much of the state's memory the calls may write: what its senders' parts end at. */
static size_t state_used(void)
{
    size_t known = state.lent[COUNT_AT];
    return PART_AT(entities, known < MOST_SENDERS ? known : MOST_SENDERS);
}

static size_t row_length(uint64_t answer)
{
    return BENCH_REST(answer) <= BENCH_ROW_SIZE ? BENCH_REST(answer) : BENCH_ROW_SIZE;
}

static uint64_t checked(void)
{
    uint64_t answer;
    save();
    answer = bench_check(text.lent, text.length, bench.lent, bench.length);
    if (BENCH_NUMBER(answer) != 0)
        check(all_same(), "a refused bench_check leaves every byte");
    else
        check(rest_same(&bench, 4 + text.length) && all_same_but(&bench, &bench), "bench_check writes the bench alone");
    return answer;
}

static uint64_t fresh(void)
{
    uint64_t answer;
    save();
    answer = bench_fresh(bench.lent, bench.length, state.lent, state.length);
    if (BENCH_NUMBER(answer) != 0)
        check(all_same(), "a refused bench_fresh leaves every byte");
    else
        check(rest_same(&state, state_used()) && all_same_but(&state, &state), "bench_fresh writes the state alone");
    return answer;
}

static uint64_t line(void)
{
    uint64_t answer;
    save();
    answer = bench_line(bench.lent, bench.length, state.lent, state.length, names.lent, names.length, values.lent, values.length, row.lent,
                        row.length);
    if (BENCH_NUMBER(answer) != 0)
        check(all_same() && BENCH_REST(answer) == 0, "a refused bench_line leaves every byte");
    else
        check(rest_same(&state, state_used()) && rest_same(&row, row_length(answer)) && all_same_but(&state, &row),
              "bench_line writes state and row alone");
    return answer;
}

static uint64_t header(void)
{
    uint64_t answer;
    save();
    answer = bench_header(bench.lent, bench.length, row.lent, row.length);
    if (BENCH_NUMBER(answer) != 0)
        check(all_same(), "a refused bench_header leaves every byte");
    else
        check(rest_same(&row, row_length(answer)) && all_same_but(&row, &row), "bench_header writes the row alone");
    return answer;
}

static uint64_t state_row(void)
{
    uint64_t answer;
    save();
    answer = bench_row(bench.lent, bench.length, state.lent, state.length, sender.lent, sender.length, row.lent, row.length);
    if (BENCH_NUMBER(answer) != 0)
        check(all_same(), "a refused bench_row leaves every byte");
    else
        check(rest_same(&row, row_length(answer)) && all_same_but(&row, &row), "bench_row writes the row alone");
    return answer;
}

/* The row of the sender of this name. */
static uint64_t row_of(const char *name)
{
    put_text(&sender, name);
    return state_row();
}

#define SHEET_ROW 81u

static size_t line_feeds(void)
{
    size_t count = 0;
    for (size_t i = 0; i < readings.length; i++)
        count += readings.lent[i] == '\n';
    return count;
}

/* Lends exactly what the sheet of the lent readings is stated to take, less some bytes. */
static void lend_sheet(size_t less)
{
    lend(&sheet, BENCH_SHEET_SIZE(line_feeds()) - less);
}

/* Rows of 80 bytes that can be printed, each closed by a line feed. */
static int is_sheet(size_t length)
{
    if (length % SHEET_ROW != 0 || length > sheet.length)
        return 0;
    for (size_t i = 0; i < length; i++)
        if (i % SHEET_ROW == SHEET_ROW - 1 ? sheet.lent[i] != '\n' : sheet.lent[i] < 32 || sheet.lent[i] > 126)
            return 0;
    return 1;
}

static uint64_t day(void)
{
    uint64_t answer;
    save();
    answer = bench_sheet(bench.lent, bench.length, state.lent, state.length, readings.lent, readings.length, cells.lent, cells.length,
                         sheet.lent, sheet.length);
    if (BENCH_NUMBER(answer) != 0)
        check(all_same() && BENCH_REST(answer) == 0, "a refused bench_sheet leaves every byte");
    else
        check(is_sheet(BENCH_REST(answer)) && rest_same(&sheet, BENCH_REST(answer)) && all_same_but(&sheet, &sheet),
              "bench_sheet writes the rows of the sheet alone");
    return answer;
}

/* The sheet of these readings and cells, in memory of just its size. */
static uint64_t day_of(const char *words, const char *chosen)
{
    put_text(&readings, words);
    put_text(&cells, chosen);
    lend_sheet(0);
    return day();
}

static uint64_t entity_name(size_t number)
{
    uint64_t answer;
    save();
    answer = bench_entity_name(text.lent, text.length, number);
    check(all_same(), "bench_entity_name writes nothing");
    check(BENCH_NUMBER(answer) == 0, "bench_entity_name refuses nothing");
    return answer;
}

static void check_row(uint64_t answer, const char *wanted)
{
    check_answer(answer, 0, strlen(wanted), wanted);
    check(memcmp(row.lent, wanted, strlen(wanted)) == 0, wanted);
}

/* The pedal bench. */

static const char PEDAL[] =
    "interface P { event down : bool } interface S { event pos : whole } interface L { action keep ( whole ) } "
    "entity p : P { } entity s : S { } entity k : L { } "
    "rules when event down from p value = true trigger action keep ( s.pos ) on k end end";

static void lend_exact(void)
{
    lend(&bench, BENCH_SIZE);
    lend(&state, BENCH_STATE_SIZE);
    lend(&row, BENCH_ROW_SIZE);
}

static void start_pedal(void)
{
    lend_exact();
    entities = 3;
    put_text(&text, PEDAL);
    check_answer(checked(), 0, 0, "the pedal bench is accepted");
    memset(state.lent, 0xa5, state.length);
    check_answer(fresh(), 0, 0, "its fresh state");
    put_text(&names, "by n p.down s.pos");
    put_text(&values, "a 1 false 100");
}

static void check_line(const char *words, const char *wanted)
{
    put_text(&values, words);
    check_row(line(), wanted);
}

static void check_refused(const char *words, unsigned number)
{
    put_text(&values, words);
    check_answer(line(), number, 0, words);
}

/* A line that is sent again gives the row that it gave, and leaves every byte of the state. */
static void check_again(const char *words, const char *wanted)
{
    check_line(words, wanted);
    check(same(&state), "a line sent again leaves every byte of the state");
}

/* Lines and their rows: each line gives its row, and then the state does for its sender. */
static void check_rows(const char *const rows[][2], size_t count)
{
    for (size_t i = 0; i < count; i++) {
        check_line(rows[i][0], rows[i][1]);
        put(&sender, rows[i][0], strcspn(rows[i][0], " "));
        check_row(state_row(), rows[i][1]);
    }
}

static void pedal_rows(void)
{
    static const char *const rows[][2] = {
        {"a 1 false 100", "a 1 -"}, {"a 2 true 140", "a 2 140"}, {"a 2 true 140", "a 2 140"}, {"a 3 - 150", "a 3 -"},
        {"a 4 false 150", "a 4 -"}, {"a 5 true 190", "a 5 190"},
    };
    start_pedal();
    check_row(header(), "by n k.keep");
    check_row(row_of("a"), "a 0 -");
    check_rows(rows, sizeof rows / sizeof rows[0]);
    check_again("a 5 true 190", "a 5 190");
    check_refused("a 4 - -", 24);
    check_row(row_of("a"), "a 5 190");
}

/* Three boxes send lines, each with its own numbers. One that sends its last line again gets the row of that line, even after lines of others and
 * with the pedal away by then. Of any other line it is tested that its pedal is there before its number is looked at. */
static void late_lines(void)
{
    static const char *const known[] = {"a 2 -", "b 1 140", "c 2 160"};
    start_pedal();
    put_text(&names, "by n p.down s.pos p");
    check_line("a 1 false 100 -", "a 1 -");
    check_line("b 1 true 140 -", "b 1 140");
    check_line("a 2 - 150 -", "a 2 -");
    check_again("b 1 true 140 -", "b 1 140");
    check_line("c 1 - - false", "c 1 -");
    check_again("b 1 true 140 -", "b 1 140");
    check_again("a 2 - 150 -", "a 2 -");
    check_refused("b 1 true 141 -", 23);
    check_refused("b 1 - 141 -", 25);
    check_refused("b 1 - 140 -", 25);
    check_refused("b 2 true 140 -", 23);
    check_refused("b 9 true 140 -", 23);
    check_refused("b 3 - - -", 24);
    check_refused("b 0 - - -", 24);
    check_refused("d 2 - 150 -", 24);
    check_again("c 1 - - false", "c 1 -");
    check_line("c 2 true 160 true", "c 2 160");
    check_again("b 1 true 140 -", "b 1 140");
    check_again("a 2 - 150 -", "a 2 -");
    check_again("c 2 true 160 true", "c 2 160");
    for (size_t i = 0; i < sizeof known / sizeof known[0]; i++) {
        put(&sender, known[i], 1);
        check_row(state_row(), known[i]);
    }
    put_text(&names, "by n s.pos p p.down");
    check_again("b 1 140 - true", "b 1 140");
    put_text(&names, "by n");
    check_refused("b 1", 25);
    check_line("b 2", "b 2 -");
}

/* Rows by sender: of one that has sent nothing its name, 0 and nothing fired; 43 for what is no name. Reserved words are names. */
static void rows_by_sender(void)
{
    static const char *const ill_formed[] = {
        "", " ", "-", "1", "1a", "_", "_a", "a-b", "camera-box", "a b", "a ", " a", "a\n", "a\t", "a.b", "a\xe4", "\xff", "a1_?",
        "abcdefghijklmnopqrstuvwxy",
    };
    static const char *const unknown[][2] = {
        {"b", "b 0 -"}, {"A", "A 0 -"}, {"aa", "aa 0 -"}, {"n", "n 0 -"}, {"by", "by 0 -"}, {"rules", "rules 0 -"}, {"true", "true 0 -"},
        {"a_1", "a_1 0 -"}, {"Z9", "Z9 0 -"}, {"abcdefghijklmnopqrstuvwx", "abcdefghijklmnopqrstuvwx 0 -"},
        {"A23456789_123456789_1234", "A23456789_123456789_1234 0 -"},
    };
    start_pedal();
    check_line("a 1 true 7", "a 1 7");
    check_line("abcdefghijklmnopqrstuvw 1 - 8", "abcdefghijklmnopqrstuvw 1 -");
    for (size_t i = 0; i < sizeof unknown / sizeof unknown[0]; i++)
        check_row(row_of(unknown[i][0]), unknown[i][1]);
    for (size_t i = 0; i < sizeof ill_formed / sizeof ill_formed[0]; i++)
        check_answer(row_of(ill_formed[i]), 43, 0, "the row of what is no name");
    put(&sender, "a", 2);
    check_answer(state_row(), 43, 0, "a name with a byte of 0 behind it");
    lend(&sender, 32769);
    memset(sender.lent, 'a', sender.length);
    check_answer(state_row(), 43, 0, "a name of 32,769 bytes");
    check_row(row_of("a"), "a 1 7");
    check_row(row_of("abcdefghijklmnopqrstuvw"), "abcdefghijklmnopqrstuvw 1 -");
}

/* Eight senders are known from their first taken lines, not from refused ones. A ninth is refused by 42, after 43 and before 23; its row can be
 * asked for. */
static void eight_senders(void)
{
    static const char *const boxes[MOST_SENDERS][2] = {
        {"a 1 true 0", "a 1 0"}, {"A 1 false 1", "A 1 -"}, {"ab 1 true 2", "ab 1 2"}, {"a_ 1 false 3", "a_ 1 -"},
        {"rules 1 true 4", "rules 1 4"}, {"by 1 false 5", "by 1 -"},
        {"abcdefghijklmnopqrstuvwx 1 true 6", "abcdefghijklmnopqrstuvwx 1 6"}, {"abcdefghijklmnopqrstuvwy 1 - 7", "abcdefghijklmnopqrstuvwy 1 -"},
    };
    static const struct {
        const char *words;
        unsigned number;
    } refused[] = {
        {"ninth 1 - -", 42}, {"ninth 1 - x", 42}, {"ninth 0 - -", 42}, {"ninth 2 - -", 42}, {"B 1 - -", 42}, {"abcdefghijklmnopqrstuvw 1 - -", 42},
        {"9th 1 - -", 43}, {"9th 1 - x", 43}, {"9th 0 - -", 43}, {"a-b 1 - -", 43}, {"_ 1 - -", 43}, {"abcdefghijklmnopqrstuvwxy 1 - -", 43},
        {"ninth 01 - -", 21}, {"9th x - -", 21}, {"ninth 1 -", 21}, {"9th 1 - - -", 21}, {"a 1 - x", 23}, {"a 3 - -", 24}, {"a 1 - 9", 25},
    };
    start_pedal();
    for (size_t i = 0; i < MOST_SENDERS; i++) {
        check_refused("ninth 2 - -", 24);
        check_refused("ninth 1 5 -", 23);
        check(state.lent[COUNT_AT] == i, "a sender is known from its first taken line");
        check_line(boxes[i][0], boxes[i][1]);
    }
    for (size_t i = 0; i < sizeof refused / sizeof refused[0]; i++)
        check_refused(refused[i].words, refused[i].number);
    check_row(row_of("ninth"), "ninth 0 -");
    check_answer(row_of("9th"), 43, 0, "the row of no name while eight are known");
    for (size_t i = MOST_SENDERS; i-- > 0;)
        check_again(boxes[i][0], boxes[i][1]);
    check_rows(boxes, MOST_SENDERS);
    check_line("rules 2 - 8", "rules 2 -");
    check_again("A 1 false 1", "A 1 -");
    check_answer(day_of("by n s.pos\nninth 1 5\na 2 6\nninth 1 5\n", "s.pos"), 0, SHEET_ROW, "a day with lines of a ninth sender");
    put_text(&names, "by n p.down s.pos ");
    check_refused("9th x", 22);
}

/* The fullest state: 32 entities of twelve members, whose actions all fire, and eight senders. */
enum { FULL_ACTIONS = 11, FULL_CALLS = 8, FULL_CELLS = MOST_ENTITIES * FULL_ACTIONS, FULL_NAMES = 4 + 8 * FULL_CELLS, FULL_ROW = 26 + 17 * FULL_CELLS };

/* A rule has eight calls at most: the first call of each says which entities it is for. */
static const char *full_bench(void)
{
    static char words[4096];
    char *at = words + sprintf(words, "interface I { event e : whole");
    for (int k = 0; k < FULL_ACTIONS; k++)
        at += sprintf(at, " action a%02d ( real )", k);
    at += sprintf(at, " }");
    for (int e = 0; e < MOST_ENTITIES; e++)
        at += sprintf(at, " entity e%02d : I { }", e);
    at += sprintf(at, " rules");
    for (int k = 0; k < FULL_ACTIONS; k++) {
        int first = k % FULL_CALLS == 0, last = k % FULL_CALLS == FULL_CALLS - 1 || k == FULL_ACTIONS - 1;
        at += sprintf(at, "%s action a%02d ( 1r ) on v%s", first ? " when event e from e31 value changed trigger" : " ,", k, first ? " : I" : "");
        at += sprintf(at, "%s", last ? " end" : "");
    }
    sprintf(at, " end");
    return words;
}

/* The state takes its stated size to the last byte, which is the last sender's. */
static void fullest_state(void)
{
    static char wanted[FULL_ROW + 1];
    char words[40];
    lend_exact();
    entities = MOST_ENTITIES;
    put_text(&text, full_bench());
    check_answer(checked(), 0, 0, "a bench of 32 entities of twelve members");
    memset(state.lent, 0xa5, state.length);
    check_answer(fresh(), 0, 0, "its fresh state");
    check_answer(header(), 0, FULL_NAMES, "the names of 352 actions");
    put_text(&names, "by n e31.e");
    for (int i = 0; i < MOST_SENDERS; i++) {
        char *at = wanted + sprintf(wanted, "abcdefghijklmnopqrstuvw%d 1", i);
        while (at < wanted + FULL_ROW)
            at += sprintf(at, " 3ff0000000000000");
        sprintf(words, "abcdefghijklmnopqrstuvw%d 1 %d", i, i);
        check(state.lent[BENCH_STATE_SIZE - 1] == 0xa5, "the last byte is not written before the eighth sender");
        check_line(words, wanted);
    }
    check(state.lent[BENCH_STATE_SIZE - 1] == 0x3f, "the last byte is that of the last action kept for the eighth sender");
    check_again(words, wanted);
    check_refused("ninth 1 -", 42);
}

/* A state belongs to its bench text: any other text, be it by a blank, has none of its states. */

/* Every call that takes a state refuses this one, whatever else is wrong. */
static void check_no_state(const char *what)
{
    put_text(&names, "n");
    put_text(&values, "");
    check_answer(line(), 33, 0, what);
    check_answer(row_of("?"), 33, 0, what);
    check_answer(day_of("n", "?"), 33, 0, what);
}

static void other_texts(void)
{
    static const char *const edits[][2] = {{"", " "}, {" ", ""}, {"", "\n"}, {"", "# p is the pedal\n"}, {"\t", ""}, {"", "#"}};
    char edited[sizeof PEDAL + 40];
    start_pedal();
    check_line("a 1 true 5", "a 1 5");
    for (size_t i = 0; i < sizeof edits / sizeof edits[0]; i++) {
        snprintf(edited, sizeof edited, "%s%s%s", edits[i][0], PEDAL, edits[i][1]);
        put_text(&text, edited);
        check_answer(checked(), 0, 0, "an edit that changes no word");
        check_row(header(), "by n k.keep");
        check_no_state("the state of another text");
    }
    snprintf(edited, sizeof edited, "%s", PEDAL);
    memcpy(strstr(edited, "= true"), "=\ttrue", 6);
    put_text(&text, edited);
    check_answer(checked(), 0, 0, "a tab for a blank");
    check_no_state("the state of a text with a tab for a blank");
    put_text(&text, PEDAL);
    check_answer(checked(), 0, 0, "the text as it was");
    check_row(row_of("a"), "a 1 5");
    put_text(&names, "by n p.down s.pos");
    check_again("a 1 true 5", "a 1 5");
    check_line("a 2 false -", "a 2 -");
    put_text(&text, edited);
    check_answer(checked(), 0, 0, "the edited text once more");
    check_answer(fresh(), 0, 0, "its own fresh state");
    check_row(row_of("a"), "a 0 -");
}

/* A lamp that is plugged in late: the clause's `with` reads this line, so it fires at once, and once. */
static void lamp_joins_late(void)
{
    static const char *const rows[][2] = {
        {"a 1 false -", "a 1 -"}, {"a 2 true true", "a 2 2"}, {"a 3 - true", "a 3 -"}, {"a 3 - true", "a 3 -"}, {"a 4 - false", "a 4 -"},
    };
    lend_exact();
    entities = 1;
    put_text(&text, "interface Lamp { attribute bay : whole event switch : bool action glow ( whole ) } entity east : Lamp { bay = 2 } "
                    "rules when event switch from east with bay = 2 value = true trigger action glow ( east.bay ) on east end end");
    check_answer(checked(), 0, 0, "the bench of a lamp is accepted");
    check_answer(fresh(), 0, 0, "its fresh state, with the lamp there");
    put_text(&names, "by n east east.switch");
    check_rows(rows, sizeof rows / sizeof rows[0]);
}

/* A stage that was zeroed in mid travel: quotients are rounded to the left on both sides of zero, by a divisor of either sign. */
static void halves_left_of_zero(void)
{
    static const char *const rows[][2] = {
        {"a 1 7", "a 1 3 -4 -7"},    {"a 2 1", "a 2 0 -1 -1"},   {"a 3 0", "a 3 0 0 0"},
        {"a 4 -1", "a 4 -1 0 1"},    {"a 5 -2", "a 5 -1 1 2"},   {"a 6 -7", "a 6 -4 3 7"},
        {"a 7 2147483647", "a 7 1073741823 -1073741824 -2147483647"},
        {"a 8 -2147483648", "a 8 -1073741824 1073741824 -"}, {"a 8 -2147483648", "a 8 -1073741824 1073741824 -"},
    };
    lend_exact();
    entities = 1;
    put_text(&text, "interface Stage { event pos : whole action half ( whole ) action back ( whole ) action turned ( whole ) } entity stage : Stage { } "
                    "rules when event pos from stage value changed trigger action half ( stage.pos / 2 ) on stage , "
                    "action back ( stage.pos / -2 ) on stage , action turned ( stage.pos / -1 ) on stage end end");
    check_answer(checked(), 0, 0, "the bench of a stage is accepted");
    check_answer(fresh(), 0, 0, "its fresh state");
    put_text(&names, "by n stage.pos");
    check_rows(rows, sizeof rows / sizeof rows[0]);
}

/* Three rules set one lamp in one cycle. The safety rule, of rank 9, stands wherever it is written; of the others, of equal rank, the earlier one
 * does. A write of no value stands nowhere, whatever its rule's rank. */
static void ranked_rules(void)
{
    static const char knob[] = "when rank 3 event down from b value changed trigger action glow ( 1 ) on l end ";
    static const char panel[] = "when rank 3 event down from b value changed trigger action glow ( 2 ) on l end ";
    static const char safety[] = "when rank 09 event down from b value = true trigger action glow ( 0 ) on l , action glow ( 7 ) on l end ";
    static const char none[] = "when rank 9 event down from b value changed trigger action glow ( 1 / 0 ) on l end ";
    static const char *const orders[][4] = {
        {safety, knob, panel, none}, {none, knob, safety, panel}, {knob, none, panel, safety},
    };
    static const char *const rows[][2] = {{"a 1 true", "a 1 0"}, {"a 2 false", "a 2 1"}, {"a 3 -", "a 3 -"}, {"a 4 true", "a 4 0"}};
    char words[600];
    for (size_t i = 0; i < sizeof orders / sizeof orders[0]; i++) {
        snprintf(words, sizeof words, "interface B { event down : bool } interface L { action glow ( whole ) } entity b : B { } entity l : L { } "
                 "rules %s%s%s%send", orders[i][0], orders[i][1], orders[i][2], orders[i][3]);
        lend_exact();
        entities = 2;
        put_text(&text, words);
        check_answer(checked(), 0, 0, "the bench with ranks is accepted");
        check_answer(fresh(), 0, 0, "its fresh state");
        put_text(&names, "by n b.down");
        check_rows(rows, sizeof rows / sizeof rows[0]);
        check_again("a 4 true", "a 4 0");
    }
}

/* The class of every byte, by the names of the header; and that a byte of each class is refused by 12, or not, where a word begins. */
static void classes_of_bytes(void)
{
    static const char *const members[] = {
        [BENCH_BYTE_LETTER] = "abcdefghijklmnopqrstuvwxyzABCDEFGHIJKLMNOPQRSTUVWXYZ",
        [BENCH_BYTE_DIGIT] = "0123456789",
        [BENCH_BYTE_UNDERSCORE] = "_",
        [BENCH_BYTE_MARK] = "{}():=,.+-*/",
        [BENCH_BYTE_BLANK] = " \t\n",
        [BENCH_BYTE_HASH] = "#",
        [BENCH_BYTE_COMMENT_ONLY] = "!\"$%&';<>?@[\\]^`|~",
    };
    uint8_t wanted[256];
    memset(wanted, BENCH_BYTE_NOT_ALLOWED, sizeof wanted);
    for (uint8_t class = 0; class < BENCH_BYTE_NOT_ALLOWED; class++)
        for (const char *byte = members[class]; *byte; byte++)
            wanted[(uint8_t)*byte] = class;
    lend_exact();
    for (unsigned byte = 0; byte < 256; byte++) {
        check(bench_byte_class((uint8_t)byte) == wanted[byte], "bench_byte_class of each byte");
        put_text(&text, "rules ?");
        text.lent[6] = (uint8_t)byte;
        int is_bad = wanted[byte] == BENCH_BYTE_UNDERSCORE || wanted[byte] >= BENCH_BYTE_COMMENT_ONLY;
        int is_gap = wanted[byte] == BENCH_BYTE_BLANK || wanted[byte] == BENCH_BYTE_HASH;
        check_answer(checked(), is_bad ? 12 : 13, is_gap ? 7 : 6, "a byte of each class after `rules`");
    }
}

/* Names of entities. */

static int is_name_byte(uint8_t byte)
{
    return byte == '_' || (byte >= '0' && byte <= '9') || (byte >= 'A' && byte <= 'Z') || (byte >= 'a' && byte <= 'z');
}

/* The start of the first word from here on, which in a text that is accepted no comment hides; the text's length if there is none. */
static size_t word_from(size_t at)
{
    while (at < text.length && !is_name_byte(text.lent[at])) {
        const uint8_t *feed = text.lent[at] == '#' ? memchr(text.lent + at, '\n', text.length - at) : text.lent + at;
        at = feed ? (size_t)(feed - text.lent) + 1 : text.length;
    }
    return at;
}

static size_t word_length(size_t at)
{
    size_t length = 0;
    while (at + length < text.length && is_name_byte(text.lent[at + length]))
        length++;
    return length;
}

/* What bench_entity_name is to answer for the text that is lent, if it is accepted: the word after the `entity` of that number. */
static uint64_t name_found(size_t number)
{
    size_t at = word_from(0);
    while (at < text.length) {
        size_t length = word_length(at), next = word_from(at + length);
        if (length == 6 && memcmp(text.lent + at, "entity", 6) == 0 && number-- == 0)
            return 256 * (uint64_t)word_length(next) + 65536 * (uint64_t)next;
        at = next;
    }
    return 0;
}

static const size_t far_numbers[] = {33, 255, 256, 65535, 65536, (size_t)1 << 32, ((size_t)1 << 32) + 1, SIZE_MAX / 2, SIZE_MAX - 1, SIZE_MAX};

/* Every number of the text that is lent, and numbers of no entity: the low bits of a great number are no number. */
static void check_names(size_t count, const char *what)
{
    for (size_t i = 0; i <= MOST_ENTITIES; i++) {
        uint64_t answer = entity_name(i);
        check(answer == (i < count ? name_found(i) : 0), what);
        check((answer != 0) == (i < count), what);
    }
    for (size_t i = 0; i < sizeof far_numbers / sizeof far_numbers[0]; i++)
        check(entity_name(far_numbers[i]) == 0, "the name of no entity");
}

static void check_name(size_t number, const char *wanted)
{
    uint64_t answer = entity_name(number);
    check(BENCH_NAME_LENGTH(answer) == strlen(wanted), wanted);
    check(BENCH_NAME_OFFSET(answer) + strlen(wanted) <= text.length, wanted);
    check(memcmp(text.lent + BENCH_NAME_OFFSET(answer), wanted, strlen(wanted)) == 0, wanted);
}

static void names_of_entities(void)
{
    static const char end[] = "interface I{}entity abcdefghijklmnopqrstuvwx:I{}rules end";
    static const char *const refused[] = {
        "", "rules", "entity e : I { } rules end", "interface I { } entity e : I { } rules end end", "interface I { } entity e : I { } rules end ;",
        "interface I { } entity e : I { } entity e : I { } rules end", "interface I { attribute a : whole } entity e : I { } rules end",
        "interface I { attribute a : whole } entity e : I { a = true } rules end",
        "interface I { action a ( whole ) } entity e : I { } rules when rank 10 event a from e value changed trigger action a ( 1 ) on e end end",
    };
    put_text(&text, PEDAL);
    check_names(3, "names of the pedal bench");
    check_name(0, "p");
    check_name(1, "s");
    check_name(2, "k");
    put_text(&text, full_bench());
    check_names(MOST_ENTITIES, "names of 32 entities");
    check_name(31, "e31");
    put_text(&text, "# entity no : I\ninterface I{}entity# entity x : I\n\tab#\n:I{}entity entity_:I{}rules end# entity y");
    check_names(2, "names between comments");
    check_name(0, "ab");
    check_name(1, "entity_");
    put_text(&text, "rules end");
    check_names(0, "names of no entities");
    lend(&text, 32768);
    memset(text.lent, ' ', text.length);
    memcpy(text.lent + 32768 - (sizeof end - 1), end, sizeof end - 1);
    check_names(1, "a name at the end of the longest text");
    check_name(0, "abcdefghijklmnopqrstuvwx");
    lend(&text, 32769);
    memset(text.lent, ' ', text.length);
    memcpy(text.lent, end, sizeof end - 1);
    check_names(0, "names of a text that is too long");
    for (size_t i = 0; i < sizeof refused / sizeof refused[0]; i++) {
        put_text(&text, refused[i]);
        check_names(0, refused[i]);
    }
}

/* Sheets. Each row is written here as its six texts, which stand right aligned in 10 and five times 14 columns. */

static void check_sheet(uint64_t answer, const char *const rows[][6], size_t count, const char *what)
{
    char wanted[SHEET_ROW + 1];
    check_answer(answer, 0, count * SHEET_ROW, what);
    for (size_t i = 0; i < count; i++) {
        snprintf(wanted, sizeof wanted, "%10s%14s%14s%14s%14s%14s\n", rows[i][0], rows[i][1], rows[i][2], rows[i][3], rows[i][4], rows[i][5]);
        check(memcmp(sheet.lent + i * SHEET_ROW, wanted, SHEET_ROW) == 0, what);
    }
}

/* A probe that can be taken off: cells of every sort and kind. */
static void start_probe(void)
{
    lend_exact();
    entities = 1;
    put_text(&text, "interface P { attribute low : real event warm : real event pos : whole event down : bool action keep ( whole ) } "
                    "entity p : P { low = 2r } rules when event down from p value = true trigger action keep ( p.pos ) on p end end");
    check_answer(checked(), 0, 0, "the bench of a probe is accepted");
    check_answer(fresh(), 0, 0, "its fresh state");
}

/* New lines, one sent again, one refused, the probe away and back. The two zeros are one lowest value, of which the earlier bits are shown. */
static void probe_sheet(void)
{
    static const char *const rows[][6] = {
        {"1", "3ff80000", "5", "true", "40000000", "5"},
        {"", "00000001", "", "", "00000000", ""},
        {"2", "3ff80000", "-", "false", "40000000", "-7"},
        {"", "00000001", "", "", "00000000", ""},
        {"3", "-", "-", "-", "-", "-"},
        {"4", "00000000", "-", "-", "40000000", "9"},
        {"", "00000000", "", "", "00000000", ""},
        {"5", "80000000", "-", "-", "40000000", "9"},
        {"", "00000000", "", "", "00000000", ""},
        {"", "00000000", "", "", "", ""}, {"", "00000000", "", "", "", ""},
        {"", "3ff80000", "", "", "", ""}, {"", "00000001", "", "", "", ""},
        {"", "80000000", "", "", "", ""}, {"", "00000000", "", "", "", ""},
        {"", "", "", "", "40000000", ""}, {"", "", "", "", "00000000", ""},
        {"", "", "", "", "40000000", ""}, {"", "", "", "", "00000000", ""},
        {"", "", "", "", "40000000", ""}, {"", "", "", "", "00000000", ""},
    };
    static const char words[] = "by n p p.down p.pos p.warm\na 1 - true 5 3ff8000000000001\na 2 - false -7 -\na 2 - false -7 -\na 5 - - - -\n"
                                "a 3 false - - -\na 4 true - 9 0000000000000000\na 5 - - - 8000000000000000";
    start_probe();
    check_sheet(day_of(words, "p.warm p.keep p.down p.low p.pos"), rows, sizeof rows / sizeof rows[0], "the sheet of a probe");
    check_sheet(day(), rows, sizeof rows / sizeof rows[0], "the same sheet once more");
    lend(&sheet, sheet.length + 100);
    check_sheet(day(), rows, sizeof rows / sizeof rows[0], "the sheet in longer memory");
}

/* A day that goes on from a state: its first line is the one that left the state, sent again, and is not printed. */
static void later_day(void)
{
    static const char *const morning[][2] = {{"a 1 false 100", "a 1 -"}, {"a 2 true 140", "a 2 140"}};
    static const char *const rows[][6] = {{"3", "150", "-", "true", "", ""}, {"4", "150", "-", "false", "", ""}, {"5", "190", "190", "true", "", ""}};
    static const char words[] = "by n p.down s.pos\na 2 true 140\na 3 - 150\na 3 - 150\na 4 false -\na 4 false 1\na 5 true 190\n";
    start_pedal();
    check_rows(morning, 2);
    check_sheet(day_of(words, "s.pos k.keep p.down"), rows, 3, "a day that begins with a line sent again");
    check_row(row_of("a"), "a 2 140");
    check_sheet(day_of("by n p.down s.pos\na 2 true 140", "s.pos k.keep p.down"), rows, 0, "a day of a line sent again alone");
    check_line("a 3 - 150", "a 3 -");
    check_sheet(day_of(words, "s.pos k.keep p.down"), rows + 1, 2, "the same day from a later line");
}

/* A day of two boxes: the numbers stand alone, each box has its own, and a line that is sent again late is not printed. */
static void two_boxes_sheet(void)
{
    static const char *const rows[][6] = {
        {"1", "100", "-", "false", "", ""}, {"1", "100", "100", "true", "", ""}, {"2", "150", "-", "true", "", ""},
        {"3", "150", "-", "false", "", ""}, {"2", "150", "150", "true", "", ""},
    };
    static const char words[] = "by n p.down s.pos\nstage 1 false 100\npedal 1 true -\nstage 2 - 150\npedal 1 true -\nstage-box 3 - 151\n"
                                "stage 3 false -\nstage 2 - 150\npedal 3 true -\npedal 2 true -\nstage 3 false -\n";
    start_pedal();
    check_sheet(day_of(words, "s.pos k.keep p.down"), rows, sizeof rows / sizeof rows[0], "a day of two boxes");
    check_line("stage 1 false 100", "stage 1 -");
    check_line("pedal 1 true -", "pedal 1 100");
    check_sheet(day_of(words, "s.pos k.keep p.down"), rows + 2, 3, "the same day from later lines");
    check_row(row_of("pedal"), "pedal 1 100");
}

/* Sizes: the sheet takes what its line feeds ask for, be they of lines that are printed or not, and the fullest sheet takes all of it. */
static void sizes_of_sheets(void)
{
    start_probe();
    for (size_t feeds = 0; feeds < 400; feeds = 2 * feeds + 1) {
        lend(&readings, 4 + feeds);
        memset(readings.lent, '\n', readings.length);
        memcpy(readings.lent, "by n", 4);
        put_text(&cells, "p.pos");
        lend_sheet(0);
        check_answer(day(), 0, 0, "lines that are all refused");
        lend_sheet(1);
        check_answer(day(), 31, 0, "bench_sheet, short sheet");
    }
    check_answer(day_of("by n\na 1\na 2\nb 1", "p.low p.low p.low p.low p.low"), 0, BENCH_SHEET_SIZE(3), "a sheet that fills its memory");
    lend_sheet(1);
    check_answer(day(), 31, 0, "bench_sheet, short sheet");
    check_answer(day_of("by n", "p.low p.low p.low p.low p.low"), 0, 15 * SHEET_ROW, "a day of no lines");
    lend(&sheet, 0);
    check_answer(day(), 31, 0, "bench_sheet, no sheet");
}

/* Refusals of sheets, each before those that stand behind it. */
static void refused_sheets(void)
{
    static const char *const unknown[] = {
        "", " ", "p.down ", " p.down", "p.down  s.pos", "p.down s.pos k.keep p.down s.pos k.keep", "p", "p.", ".down", ".", "p.down.down",
        "q.down", "p.pos", "p.dow", "p.downs", "P.down", "p.down\n", "p.down\ts.pos", "p.down,s.pos", "n", "by n p.down", "p .down",
    };
    static const char *const names_refused[] = {
        "", "\n", "by", "n", "by\na 1", "n\n1", "n p.down\n1 true", "n by", "by a", "by  n", "by n \na 1", " by n", "by n q", "by n k.keep\na 1 5",
        "by n p.down p.down", "by n n", "x\na 1", "BY n", "by N", "by n\r\na 1", "by\tn", "a 1",
    };
    static const char good[] = "by n p.down s.pos\na 1 true 5\n", chosen[] = "k.keep p.down s.pos s.pos s.pos";
    start_pedal();
    check_answer(day_of(good, chosen), 0, SHEET_ROW, "five cells, one of them chosen again");
    for (size_t i = 0; i < sizeof unknown / sizeof unknown[0]; i++) {
        check_answer(day_of(good, unknown[i]), 41, 0, unknown[i]);
        check_answer(day_of("by n q", unknown[i]), 41, 0, "41 comes before 22");
    }
    for (size_t i = 0; i < sizeof names_refused / sizeof names_refused[0]; i++)
        check_answer(day_of(names_refused[i], chosen), 22, 0, names_refused[i]);
    lend(&readings, 32769);
    memset(readings.lent, 'n', readings.length);
    lend_sheet(0);
    check_answer(day(), 22, 0, "names of 32,769 bytes");
    state.lent[PLANES_AT] = 2;
    check_answer(day_of("by n q", "q"), 33, 0, "33 comes before 41");
    bench.lent[4] = '#';
    check_answer(day(), 32, 0, "32 comes before 33");
    lend_sheet(1);
    check_answer(day(), 31, 0, "31 comes before 32");
}

/* Lines that are too long, or have bytes that no line has, are passed over. */
static void odd_lines(void)
{
    static const char *const rows[][6] = {{"1", "5", "", "", "", ""}, {"2", "6", "", "", "", ""}};
    static const char before[] = "by n s.pos\na 1 5\n", after[] = "\na 2 6\na 3 \xff\n\na 3 6\r\na 3  6\n\xff 3 6\n3 6";
    start_pedal();
    put_text(&cells, "s.pos");
    lend(&readings, sizeof before - 1 + 8193 + sizeof after - 1);
    memset(readings.lent, '2', readings.length);
    memcpy(readings.lent, before, sizeof before - 1);
    memcpy(readings.lent + readings.length - (sizeof after - 1), after, sizeof after - 1);
    lend_sheet(0);
    check_sheet(day(), rows, 2, "lines too long or ill formed");
}

/* Memory longer than stated: the bytes past the size stay. */
static void longer_memory(void)
{
    start_pedal();
    lend(&bench, BENCH_SIZE + 100);
    lend(&state, BENCH_STATE_SIZE + 100);
    lend(&row, BENCH_ROW_SIZE + 100);
    check_answer(checked(), 0, 0, "a longer bench");
    check_answer(fresh(), 0, 0, "a longer state");
    check_row(header(), "by n k.keep");
    check_row(line(), "a 1 -");
    check_row(row_of("a"), "a 1 -");
    check_answer(day_of("by n p.down s.pos\na 2 true 5\n", "k.keep"), 0, SHEET_ROW, "the sheet of a longer bench and state");
}

/* One byte less than stated, for each memory of each call. */
static void short_memory(void)
{
    start_pedal();
    lend(&bench, BENCH_SIZE - 1);
    check_answer(checked(), 31, 0, "bench_check, short bench");
    put_text(&text, ";");
    check_answer(checked(), 31, 0, "31 comes before 12");
    check_answer(fresh(), 31, 0, "bench_fresh, short bench");
    check_answer(line(), 31, 0, "bench_line, short bench");
    check_answer(header(), 31, 0, "bench_header, short bench");
    check_answer(row_of("?"), 31, 0, "bench_row, short bench");
    check_answer(day_of("by n", "k.keep"), 31, 0, "bench_sheet, short bench");
    start_pedal();
    lend(&state, BENCH_STATE_SIZE - 1);
    check_answer(fresh(), 31, 0, "bench_fresh, short state");
    check_answer(line(), 31, 0, "bench_line, short state");
    check_answer(row_of("?"), 31, 0, "bench_row, short state");
    check_answer(day_of("by n q", "q"), 31, 0, "bench_sheet, short state");
    start_pedal();
    lend(&row, BENCH_ROW_SIZE - 1);
    check_answer(line(), 31, 0, "bench_line, short row");
    check_answer(header(), 31, 0, "bench_header, short row");
    check_answer(row_of("a"), 31, 0, "bench_row, short row");
    lend(&bench, 0);
    lend(&state, 0);
    lend(&row, 0);
    check_answer(checked(), 31, 0, "bench_check, no bench");
    check_answer(fresh(), 31, 0, "bench_fresh, no memory");
    check_answer(line(), 31, 0, "bench_line, no memory");
    check_answer(header(), 31, 0, "bench_header, no memory");
    check_answer(state_row(), 31, 0, "bench_row, no memory");
    check_answer(day_of("by n", "k.keep"), 31, 0, "bench_sheet, no bench and no state");
}

/* NULL with length 0, for each slice of each call: an empty text, or memory that is too short. */

static void lend_null(struct region *region)
{
    region->lent = NULL;
    region->length = 0;
}

static void start_null(struct region *region)
{
    start_pedal();
    put_text(&sender, "a");
    put_text(&readings, "by n");
    put_text(&cells, "k.keep");
    lend_sheet(0);
    lend_null(region);
}

static void null_slices(void)
{
    start_null(&text);
    check_answer(checked(), 13, 0, "bench_check, NULL text");
    check_names(0, "bench_entity_name, NULL text");
    lend_null(&bench);
    check_answer(checked(), 31, 0, "bench_check, NULL alone");
    start_null(&bench);
    check_answer(checked(), 31, 0, "bench_check, NULL bench");
    check_answer(fresh(), 31, 0, "bench_fresh, NULL bench");
    check_answer(line(), 31, 0, "bench_line, NULL bench");
    check_answer(header(), 31, 0, "bench_header, NULL bench");
    check_answer(state_row(), 31, 0, "bench_row, NULL bench");
    check_answer(day(), 31, 0, "bench_sheet, NULL bench");
    start_null(&state);
    check_answer(fresh(), 31, 0, "bench_fresh, NULL state");
    check_answer(line(), 31, 0, "bench_line, NULL state");
    check_answer(state_row(), 31, 0, "bench_row, NULL state");
    check_answer(day(), 31, 0, "bench_sheet, NULL state");
    start_null(&row);
    check_answer(line(), 31, 0, "bench_line, NULL row");
    check_answer(header(), 31, 0, "bench_header, NULL row");
    check_answer(state_row(), 31, 0, "bench_row, NULL row");
    start_null(&names);
    check_answer(line(), 22, 0, "bench_line, NULL names");
    start_null(&values);
    check_answer(line(), 21, 0, "bench_line, NULL values");
    start_null(&sender);
    check_answer(state_row(), 43, 0, "bench_row, NULL sender");
    start_null(&readings);
    check_answer(day(), 22, 0, "bench_sheet, NULL readings");
    start_null(&cells);
    check_answer(day(), 41, 0, "bench_sheet, NULL cells");
    start_null(&sheet);
    check_answer(day(), 31, 0, "bench_sheet, NULL sheet");
}

/* Refusals of texts; each leaves the bench that was there. */
static void refused_texts(void)
{
    static const struct {
        const char *words;
        unsigned number;
        size_t offset;
    } cases[] = {
        {"", 13, 0},
        {"rules end ;", 12, 10},
        {"rules end # \x01", 12, 12},
        {"rules", 13, 5},
        {"rules end end", 13, 10},
        {"interface I { } interface I { } rules end", 15, 26},
        {"entity e : I { } rules end", 16, 11},
        {"interface I { attribute a : whole } entity e : I { } rules end", 17, 51},
        {"interface I { attribute a : whole } entity e : I { a = true } rules end", 18, 53},
        {"rules when rank 10 event e from s value changed trigger action k ( 1 ) on s end end", 44, 16},
        {"rules when rank 9 event e from s value changed trigger action k ( 1 ) on s end end", 16, 31},
        {"rules when rank 10 rank", 13, 19},
        {"rules when rank 9r event", 13, 16},
        {"interface rank { } rules end", 13, 10},
        {"interface I { event a : bool event b : bool event c : bool event d : bool event e : bool event f : bool event g : bool "
         "event h : bool event i : bool event j : bool event k : bool event l : bool event m : bool } rules end", 14, 194},
    };
    start_pedal();
    for (size_t i = 0; i < sizeof cases / sizeof cases[0]; i++) {
        put_text(&text, cases[i].words);
        check_answer(checked(), cases[i].number, cases[i].offset, cases[i].words);
        check_row(header(), "by n k.keep");
    }
    lend(&text, 32769);
    memset(text.lent, ' ', text.length);
    check_answer(checked(), 11, 32768, "a text of 32,769 bytes");
    lend(&text, 32768);
    memset(text.lent, ' ', text.length);
    check_answer(checked(), 13, 32768, "32,768 blanks");
    memcpy(text.lent + 32768 - 9, "rules end", 9);
    check_answer(checked(), 0, 0, "a text of 32,768 bytes");
    put_text(&names, "by n");
    put_text(&values, "a 1");
    entities = 0;
    check_answer(fresh(), 0, 0, "the state of no entities");
    check_row(line(), "a 1");
    check_row(row_of("b"), "b 0");
}

static void refused_lines(void)
{
    static const struct {
        const char *names;
        const char *values;
        unsigned number;
    } cases[] = {
        {"", "a 2 - -", 22},
        {"n p.down s.pos", "2 - -", 22},
        {"n p.down s.pos", "a 2 - -", 22},
        {"by p.down s.pos", "a - -", 22},
        {"n by p.down s.pos", "2 a - -", 22},
        {"by n p.down s.pos ", "a 2 - -", 22},
        {"by  n p.down s.pos", "a 2 - -", 22},
        {"by n p.down p.down", "a 2 - -", 22},
        {"by n k.keep", "a 2 1", 22},
        {"by n p.down s.pos", "", 21},
        {"by n p.down s.pos", "2 - -", 21},
        {"by n p.down s.pos", "a - -", 21},
        {"by n p.down s.pos", "a 2 -", 21},
        {"by n p.down s.pos", "a 2 -  -", 21},
        {"by n p.down s.pos", "a  2 - -", 21},
        {"by n p.down s.pos", " 2 - -", 21},
        {"by n p.down s.pos", " a 2 - -", 21},
        {"by n p.down s.pos", "a a 2 - -", 21},
        {"by n p.down s.pos", "2 a - -", 21},
        {"by n p.down s.pos", "a 02 - -", 21},
        {"by n p.down s.pos", "1 02 - -", 21},
        {"by n p.down s.pos", "a 2 - -\n", 21},
        {"by n p.down s.pos", "1 2 - -", 43},
        {"by n p.down s.pos", "- 2 - -", 43},
        {"by n p.down s.pos", "? 2 1 -", 43},
        {"by n p.down s.pos", "a-b 0 - -", 43},
        {"by n p.down s.pos", "a\t 2 - -", 43},
        {"by n p.down s.pos", "a\xff 2 - -", 43},
        {"by n p.down s.pos", "abcdefghijklmnopqrstuvwxy 1 - -", 43},
        {"by n p.down s.pos", "a 2 1 -", 23},
        {"by n p.down s.pos", "a 2 - -0", 23},
        {"by n p.down s.pos", "b 5 - -0", 23},
        {"by n p p.down", "a 2 false true", 23},
        {"by n p p.down", "b 5 false true", 23},
        {"by n p.down s.pos", "a 0 - -", 24},
        {"by n p.down s.pos", "a 3 - -", 24},
        {"by n p.down s.pos", "b 0 - -", 24},
        {"by n p.down s.pos", "b 2 - -", 24},
        {"by n p.down s.pos", "A 2 - -", 24},
        {"by n p.down s.pos", "a 1 - -", 25},
        {"by n p.down s.pos", "a 1 false 101", 25},
    };
    start_pedal();
    check_row(line(), "a 1 -");
    for (size_t i = 0; i < sizeof cases / sizeof cases[0]; i++) {
        put_text(&names, cases[i].names);
        put_text(&values, cases[i].values);
        check_answer(line(), cases[i].number, 0, cases[i].values);
    }
    put_text(&names, "by n");
    lend(&values, 8193);
    memset(values.lent, '1', values.length);
    check_answer(line(), 21, 0, "values of 8,193 bytes");
    values.lent[8190] = ' ';
    check_answer(line(), 21, 0, "a sender of 8,190 bytes in a line too long");
    lend(&values, 8192);
    memset(values.lent, 'a', values.length);
    memcpy(values.lent + 8190, " 2", 2);
    check_answer(line(), 43, 0, "a sender of 8,190 bytes");
    put_text(&values, "a 2");
    lend(&names, 32769);
    memset(names.lent, 'n', names.length);
    check_answer(line(), 22, 0, "names of 32,769 bytes");
}

/* A state of one entity with an attribute: its flag before stands behind the plane of now, and then its first cell, of nine bytes. */
static void attribute_unset_before(void)
{
    uint8_t *flag, *cell;
    lend_exact();
    entities = 1;
    flag = state.lent + PLANES_AT + PLANE(1);
    cell = flag + 1;
    put_text(&text, "interface I { attribute a : whole } entity e : I { a = 7 } rules end");
    check_answer(checked(), 0, 0, "a bench with an attribute");
    check_answer(fresh(), 0, 0, "its fresh state");
    put_text(&names, "by n");
    check(*flag == 0 && *cell == 0, "absent and unset before the first cycle");
    check_line("a 1", "a 1");
    check(*flag == 1 && *cell == 1, "present and set after it");
    memset(cell, 0, 9);
    check_no_state("present before with an attribute unset");
    *flag = 0;
    check_row(row_of("a"), "a 1");
    put_text(&names, "by n");
    check_line("a 2", "a 2");
}

/* Changes one byte of the state, which makes it none, and puts it back. */
static void check_spoilt(size_t at, uint8_t byte, const char *what)
{
    uint8_t kept = state.lent[at];
    state.lent[at] = byte;
    check_no_state(what);
    state.lent[at] = kept;
}

/* What is kept of senders: two are known, ab with the number 1 and a with 2. The pedal p, the stage s and the log k have a cell each, the others of
 * their twelve are never used. */
static void spoilt_senders(void)
{
    size_t first, second, kept;
    start_pedal();
    check_line("ab 1 true 5", "ab 1 5");
    check_line("a 1 - -", "a 1 -");
    check_line("a 2 - 6", "a 2 -");
    first = PART_AT(3, 0);
    second = PART_AT(3, 1);
    kept = first + KEPT_AT + 3; /* behind the three flags */
    for (size_t at = 0; at < COUNT_AT; at++)
        check_spoilt(at, (uint8_t)(state.lent[at] + 1), "another text's state");
    check_spoilt(COUNT_AT, 9, "nine senders");
    check_spoilt(COUNT_AT, 255, "255 senders");
    check_spoilt(COUNT_AT, 3, "a third sender where none was written");
    check_spoilt(first, 0, "a sender without a name");
    check_spoilt(first, 1, "a byte behind a name");
    check_spoilt(first, 3, "a name with a byte of 0");
    check_spoilt(first, 25, "a name of 25 bytes");
    check_spoilt(first, 255, "a name of 255 bytes");
    check_spoilt(first + NAME_AT, '1', "a name that begins with a digit");
    check_spoilt(first + NAME_AT + 1, '-', "a name with a mark");
    check_spoilt(first + NAME_AT + 2, 'c', "a byte behind a name");
    check_spoilt(first + NUMBER_AT - 1, 1, "a byte at the end of a name's place");
    check_spoilt(first + NUMBER_AT, 0, "the number 0");
    check_spoilt(first + KEPT_AT, 3, "a presence that cannot be read");
    check_spoilt(kept, 1, "a whole kept of an event of bools");
    check_spoilt(kept + 1, 2, "a bool that is none");
    check_spoilt(kept + 9, 0, "a member that the pedal does not have");
    check_spoilt(kept + 24 * 9, 4, "an action that was not read");
    check_spoilt(kept + 24 * 9, 2, "a bool kept of an action of wholes");
    check_spoilt(second + NUMBER_AT, 0, "the number 0 of the second sender");
    check_spoilt(second + KEPT_AT + 3 + 36 * 9 - 1, 1, "the last byte of all");
    state.lent[first] = 1;
    state.lent[first + NAME_AT + 1] = 0;
    check_no_state("two senders of one name");
    state.lent[first + NAME_AT] = 'A';
    check_row(row_of("A"), "A 1 5");
    check_row(row_of("a"), "a 2 -");
    check_row(row_of("ab"), "ab 0 -");
    put_text(&names, "by n p.down s.pos");
    check_again("A 1 true 5", "A 1 5");
    memset(state.lent + PART_AT(3, 2), 255, BENCH_STATE_SIZE - PART_AT(3, 2));
    check_again("a 2 - 6", "a 2 -");
    state.lent[COUNT_AT] = 1;
    check_row(row_of("a"), "a 0 -");
    check_line("a 1 - 6", "a 1 -");
}

/* The last number that there is. */
static void last_number(void)
{
    uint8_t *number;
    start_pedal();
    number = state.lent + PART_AT(3, 0) + NUMBER_AT;
    check_line("a 1 - -", "a 1 -");
    check(number[0] == 1 && number[1] == 0 && number[2] == 0 && number[3] == 0, "where a sender's number stands");
    memset(number, 255, 4);
    check_again("a 4294967295 - -", "a 4294967295 -");
    check_refused("a 4294967296 - -", 24);
    check_refused("a 4294967295 - 1", 25);
    check_line("b 1 - -", "b 1 -");
    number[0] = 254;
    check_answer(day_of("by n\na 4294967295\na 4294967296\na 0", "k.keep"), 0, SHEET_ROW, "a day up to the last number");
    check(memcmp(sheet.lent, "4294967295             -", 24) == 0, "a number of ten digits");
    check_line("a 4294967295 true 7", "a 4294967295 7");
}

/* Memory that is no bench, or no state of it. */
static void foreign_memory(void)
{
    start_pedal();
    state.lent[PLANES_AT] = 2;
    check_answer(line(), 33, 0, "a flag of 2");
    check_answer(row_of("a"), 33, 0, "a flag of 2");
    bench.lent[4] = '#';
    check_answer(line(), 32, 0, "32 comes before 33");
    check_answer(row_of("?"), 32, 0, "32 comes before 33 and 43");
    check_answer(fresh(), 32, 0, "a bench that is refused");
    check_answer(header(), 32, 0, "a bench that is refused");
    bench.lent[4] = 'i';
    memset(bench.lent, 255, 4);
    check_answer(row_of("a"), 32, 0, "a length beyond the most");
    attribute_unset_before();
    spoilt_senders();
    last_number();
}

/* Random bytes. */

/* However many of them are line feeds, there is memory for the sheet. */
#define MOST_RANDOM_READINGS 400u

static uint64_t seed = 1;

static uint64_t random_number(void)
{
    uint64_t z = (seed += 0x9e3779b97f4a7c15u);
    z = (z ^ (z >> 30)) * 0xbf58476d1ce4e5b9u;
    z = (z ^ (z >> 27)) * 0x94d049bb133111ebu;
    return z ^ (z >> 31);
}

static size_t below(size_t bound)
{
    return (size_t)(random_number() % bound);
}

static void scatter(struct region *region, size_t length)
{
    lend(region, length);
    for (size_t i = 0; i < length; i++)
        region->lent[i] = (uint8_t)random_number();
}

static void check_number(uint64_t answer, const char *allowed, const char *what)
{
    /* `allowed` lists two digits for each number. */
    char wanted[3] = {(char)('0' + BENCH_NUMBER(answer) / 10 % 10), (char)('0' + BENCH_NUMBER(answer) % 10), 0};
    int holds = 0;
    for (size_t i = 0; i + 1 < strlen(allowed); i += 2)
        holds |= memcmp(allowed + i, wanted, 2) == 0 && BENCH_NUMBER(answer) < 100;
    check(holds, what);
}

/* The pedal bench after some lines of two boxes; the line that is lent is a's last. */
static void start_boxes(void)
{
    start_pedal();
    check_line("a 1 true 5", "a 1 5");
    check_line("b 1 false -", "b 1 -");
    check_line("a 2 - 6", "a 2 -");
}

static void random_arguments(void)
{
    start_pedal();
    scatter(&text, below(10) == 0 ? below(33000) : below(40));
    check_number(checked(), "00111213141516171844", "bench_check of random bytes");
    start_pedal();
    if (below(2) == 0)
        scatter(&names, below(10) == 0 ? below(33000) : below(20));
    else
        scatter(&values, below(10) == 0 ? below(8300) : below(20));
    check_number(line(), "00212223242543", "bench_line of random bytes");
    scatter(&sender, below(10) == 0 ? below(33000) : below(26));
    check_number(state_row(), "0043", "bench_row of random bytes");
    start_boxes();
    if (below(2) == 0)
        scatter(&state, BENCH_STATE_SIZE);
    else
        state.lent[below(state_used())] = (uint8_t)random_number();
    check_number(row_of("a"), "0033", "bench_row of a random state");
    check_number(line(), "00332425", "bench_line of a random state");
    start_boxes();
    entities = MOST_ENTITIES;
    if (below(3) == 0)
        scatter(&bench, BENCH_SIZE);
    else
        bench.lent[below(4 + sizeof PEDAL)] = (uint8_t)random_number();
    check_number(header(), "0032", "bench_header of a random bench");
    check_number(line(), "003233", "bench_line of a random bench");
    check_number(row_of("a"), "003233", "bench_row of a random bench");
    check_number(fresh(), "0032", "bench_fresh of a random bench");
}

/* Changes some bytes of what is lent. */
static void blur(struct region *region)
{
    for (size_t i = below(3) + 1; i > 0; i--)
        region->lent[below(region->length)] = (uint8_t)(below(2) == 0 ? random_number() : (uint64_t)"\n -.?nab1"[below(9)]);
}

/* Random bytes as a text of entities, or a text with some of its bytes changed: names are given exactly if the text is accepted. */
static void random_names(void)
{
    size_t number = below(2) == 0 ? below(MOST_ENTITIES + 2) : (size_t)random_number();
    lend_exact();
    put_text(&text, PEDAL);
    if (below(4) == 0)
        scatter(&text, below(10) == 0 ? below(33000) : below(40));
    else
        blur(&text);
    int is_accepted = BENCH_NUMBER(checked()) == 0;
    check(entity_name(number) == (is_accepted ? name_found(number) : 0), "bench_entity_name of random bytes");
    number = below(4);
    check(entity_name(number) == (is_accepted ? name_found(number) : 0), "bench_entity_name of random bytes");
}

/* Random bytes as each argument of a sheet, or its bytes with some of them changed. */
static void random_day(void)
{
    start_boxes();
    put_text(&readings, "by n p.down s.pos\na 2 - 6\na 3 false -\nb 2 true 7\na 3 false -\nb 3 ? -9\nc 1 - -\n");
    put_text(&cells, "p.down s.pos k.keep");
    switch (below(4)) {
    case 0:
        if (below(2) == 0)
            scatter(&readings, below(MOST_RANDOM_READINGS));
        else
            blur(&readings);
        lend_sheet(0);
        check_number(day(), "0022", "bench_sheet of random readings");
        return;
    case 1:
        if (below(2) == 0)
            scatter(&cells, below(60));
        else
            blur(&cells);
        lend_sheet(0);
        check_number(day(), "0041", "bench_sheet of random cells");
        return;
    case 2:
        if (below(3) == 0)
            scatter(&state, BENCH_STATE_SIZE);
        else
            state.lent[below(state_used())] = (uint8_t)random_number();
        lend_sheet(0);
        check_number(day(), "0033", "bench_sheet of a random state");
        return;
    default:
        if (below(3) == 0)
            scatter(&bench, BENCH_SIZE);
        else
            bench.lent[below(4 + sizeof PEDAL)] = (uint8_t)random_number();
        lend_sheet(0);
        check_number(day(), "003233", "bench_sheet of a random bench");
    }
}

/* All arguments at once, of any bytes and any lengths. */
static void random_everything(void)
{
    entities = MOST_ENTITIES;
    scatter(&text, below(200));
    scatter(&bench, BENCH_SIZE - below(2));
    scatter(&state, BENCH_STATE_SIZE - below(2));
    scatter(&row, BENCH_ROW_SIZE - below(2));
    scatter(&names, below(30));
    scatter(&values, below(30));
    scatter(&sender, below(30));
    scatter(&readings, below(MOST_RANDOM_READINGS));
    scatter(&cells, below(60));
    scatter(&sheet, BENCH_SHEET_SIZE(line_feeds()) - below(2));
    check_number(day(), "3132334122", "bench_sheet of random bytes alone");
    check_number(line(), "31323321222324254243", "bench_line of random bytes alone");
    check_number(state_row(), "31323343", "bench_row of random bytes alone");
    check_number(header(), "3132", "bench_header of random bytes alone");
    check_number(fresh(), "3132", "bench_fresh of random bytes alone");
    check_number(checked(), "00311213141516171844", "bench_check of random bytes alone");
}

int main(void)
{
    make(&text, 40000);
    make(&bench, BENCH_SIZE + 200);
    make(&state, BENCH_STATE_SIZE + 200);
    make(&names, 40000);
    make(&values, 10000);
    make(&sender, 40000);
    make(&row, BENCH_ROW_SIZE + 200);
    make(&readings, 40000);
    make(&cells, 200);
    make(&sheet, BENCH_SHEET_SIZE(MOST_RANDOM_READINGS) + 200);
    for (lend_at_start = 0; lend_at_start < 2; lend_at_start++) {
        pedal_rows();
        late_lines();
        rows_by_sender();
        eight_senders();
        fullest_state();
        other_texts();
        lamp_joins_late();
        halves_left_of_zero();
        ranked_rules();
        classes_of_bytes();
        names_of_entities();
        probe_sheet();
        later_day();
        two_boxes_sheet();
        sizes_of_sheets();
        refused_sheets();
        odd_lines();
        longer_memory();
        short_memory();
        null_slices();
        refused_texts();
        refused_lines();
        foreign_memory();
        for (int i = 0; i < 300; i++)
            random_arguments();
        for (int i = 0; i < 600; i++)
            random_day();
        for (int i = 0; i < 600; i++)
            random_names();
        for (int i = 0; i < 50; i++)
            random_everything();
    }
    printf("%lu passed, %lu failed\n", passed, failed);
    return failed != 0;
}
