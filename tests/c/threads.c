/* Threads that call at the same time, each with memory of its own and a stack of exactly BENCH_STACK_SIZE bytes, get what one alone gets. They run a
 * bench that takes the most: the longest text, all entities, members and rules, conditions and expressions of the deepest nesting. Each stack is
 * painted before, so that what the calls took of it is seen. */
#define _DEFAULT_SOURCE
#include "bench_engine.h"

#include <pthread.h>
#include <stdio.h>
#include <stdlib.h>
#include <string.h>
#include <sys/mman.h>
#include <unistd.h>

enum { THREADS = 4, ROUNDS = 2, LINES = 24, PAINT = 0xa5 };
enum { TEXT = 32768, ENTITIES = 32, RULES = 64, MEMBERS = 12, OPENERS = 16, ROOMS = 8 };

/* What a thread must have left over, so that a caller's own frames have room too. */
enum { MARGIN = 64 << 10 };

static void fail(const char *what)
{
    fprintf(stderr, "threads: %s\n", what);
    exit(1);
}

/* The bench. */

static char text[TEXT + 1];
static char *text_end = text;

static void add(const char *words)
{
    size_t length = strlen(words);
    if (text_end + length > text + TEXT)
        fail("the bench text is too long");
    memcpy(text_end, words, length);
    text_end += length;
}

static void add_number(int number)
{
    char words[24];
    snprintf(words, sizeof words, "%d ", number);
    add(words);
}

static void add_times(const char *words, int times)
{
    while (times-- > 0)
        add(words);
}

/* An expression whose value is that of the words, inside this many openers: signs in pairs, or parentheses. */
static void add_nested(int openers, int by_sign, const char *words)
{
    int signs = by_sign ? openers / 2 * 2 : 0;
    add_times("-", signs);
    add_times("(", openers - signs);
    add(words);
    add_times(")", openers - signs);
}

/* Parentheses of the condition and openers of its expressions are as many together as may enclose one another. All variables
 * of a rule are bound in one room, so that a line does not take minutes. */
static void add_rule(int rule)
{
    int outside = rule % (OPENERS + 1), inside = OPENERS - outside, by_sign = rule / (OPENERS + 1) % 2;
    char room[24];
    snprintf(room, sizeof room, "%d", rule % ROOMS);
    add("when ");
    add_times("(", outside);
    add("event e from a:I with r=");
    add_nested(inside, by_sign, room);
    add(" value=");
    add_nested(inside, by_sign, "a.r*0+b.e");
    add_times(")", outside);
    add(" and event e from b:I with r=a.r value changed trigger action g(");
    add_nested(OPENERS, by_sign, "b.e+c.r");
    add(")on c:I with r=");
    add_nested(OPENERS, !by_sign, "a.r");
    add(",action h(");
    add(rule % 2 ? "-real(" : "real(");
    add_nested(OPENERS - 2, by_sign, "b.e");
    add(")/3r)on b end\n");
}

static void make_text(void)
{
    add("interface I{attribute r:whole event e:whole action g(whole)action h(real)");
    for (int i = 4; i < MEMBERS; i++) {
        add("action a");
        add_number(i);
        add("(real)");
    }
    add("}\n");
    for (int i = 0; i < ENTITIES; i++) {
        add("entity v");
        add_number(i);
        add(":I{r=");
        add_number(i % ROOMS);
        add("}\n");
    }
    add("rules\n");
    for (int i = 0; i < RULES; i++)
        add_rule(i);
    add("end #");
    while (text_end < text + TEXT)
        add(".");
}

/* A column for each event, and lines of small numbers without an order, so that two of a room often become equal. */
static void put_names(char *names)
{
    names += sprintf(names, "by n");
    for (int i = 0; i < ENTITIES; i++)
        names += sprintf(names, " v%d.e", i);
}

static void put_line(char *line, int number)
{
    line += sprintf(line, "box %d", number);
    for (int i = 0; i < ENTITIES; i++)
        line += sprintf(line, " %u", ((unsigned)(number * ENTITIES + i) * 2654435761u >> 16) % 3);
}

/* One caller: all calls, over some lines. What they answer and write is folded into one number. */

struct caller {
    uint8_t *bench, *state, *row, *sheet;
    char *day;
    uint64_t sum, fired;
    pthread_barrier_t *start;
};

static void *room(size_t length)
{
    void *memory = calloc(1, length);
    if (!memory)
        fail("no memory");
    return memory;
}

/* FNV-1a. */
static void fold(struct caller *caller, const void *bytes, size_t length)
{
    const uint8_t *at = bytes;
    for (size_t i = 0; i < length; i++)
        caller->sum = (caller->sum ^ at[i]) * 1099511628211u;
}

static void fold_answer(struct caller *caller, uint64_t answer, const uint8_t *written)
{
    fold(caller, &answer, sizeof answer);
    if (written && BENCH_NUMBER(answer) == BENCH_ACCEPTED)
        fold(caller, written, BENCH_REST(answer));
}

static void take_lines(struct caller *caller)
{
    char names[512], line[512], *end;
    put_names(names);
    end = caller->day + sprintf(caller->day, "%s\n", names);
    for (int i = 1; i <= LINES; i++) {
        put_line(line, i);
        uint64_t answer = bench_line(caller->bench, BENCH_SIZE, caller->state, BENCH_STATE_SIZE, (const uint8_t *)names, strlen(names),
                                     (const uint8_t *)line, strlen(line), caller->row, BENCH_ROW_SIZE);
        fold_answer(caller, answer, caller->row);
        if (BENCH_NUMBER(answer) != BENCH_ACCEPTED)
            continue;
        for (size_t k = 1; k < BENCH_REST(answer); k++)
            caller->fired += caller->row[k - 1] == ' ' && caller->row[k] != '-';
        end += sprintf(end, "%s\n", line);
    }
}

static void call_all(struct caller *caller)
{
    static const char cells[] = "v0.e v1.g v2.h v31.h v30.g";
    const uint8_t *words = (const uint8_t *)text;
    caller->sum = 14695981039346656037u;
    caller->fired = 0;
    fold_answer(caller, bench_check(words, TEXT, caller->bench, BENCH_SIZE), NULL);
    fold_answer(caller, bench_fresh(caller->bench, BENCH_SIZE, caller->state, BENCH_STATE_SIZE), NULL);
    fold_answer(caller, bench_header(caller->bench, BENCH_SIZE, caller->row, BENCH_ROW_SIZE), caller->row);
    take_lines(caller);
    fold_answer(caller, bench_row(caller->bench, BENCH_SIZE, caller->state, BENCH_STATE_SIZE, (const uint8_t *)"box", 3, caller->row, BENCH_ROW_SIZE),
                caller->row);
    bench_fresh(caller->bench, BENCH_SIZE, caller->state, BENCH_STATE_SIZE);
    fold_answer(caller, bench_sheet(caller->bench, BENCH_SIZE, caller->state, BENCH_STATE_SIZE, (const uint8_t *)caller->day, strlen(caller->day),
                                    (const uint8_t *)cells, sizeof cells - 1, caller->sheet, BENCH_SHEET_SIZE(LINES + 1)), caller->sheet);
    for (size_t i = 0; i <= ENTITIES; i++) {
        uint64_t answer = bench_entity_name(words, TEXT, i);
        fold(caller, words + BENCH_NAME_OFFSET(answer), BENCH_NAME_LENGTH(answer));
    }
    for (unsigned byte = 0; byte < 256; byte++)
        fold_answer(caller, bench_byte_class((uint8_t)byte), NULL);
}

static void prepare(struct caller *caller)
{
    caller->bench = room(BENCH_SIZE);
    caller->state = room(BENCH_STATE_SIZE);
    caller->row = room(BENCH_ROW_SIZE);
    caller->sheet = room(BENCH_SHEET_SIZE(LINES + 1));
    caller->day = room(512 * (LINES + 2));
}

/* The calls get stacks of just the size that the header says, with a guard below. */

static uint8_t *make_stack(void)
{
    size_t page = (size_t)sysconf(_SC_PAGESIZE);
    uint8_t *whole = mmap(NULL, page + BENCH_STACK_SIZE, PROT_READ | PROT_WRITE, MAP_PRIVATE | MAP_ANONYMOUS, -1, 0);
    if (whole == MAP_FAILED || mprotect(whole, page, PROT_NONE) != 0)
        fail("no stack");
    memset(whole + page, PAINT, BENCH_STACK_SIZE);
    return whole + page;
}

static size_t used(const uint8_t *stack)
{
    size_t left = 0;
    while (left < BENCH_STACK_SIZE && stack[left] == PAINT)
        left++;
    return BENCH_STACK_SIZE - left;
}

static void *run(void *given)
{
    struct caller *caller = given;
    pthread_barrier_wait(caller->start);
    for (int i = 0; i < ROUNDS; i++)
        call_all(caller);
    return NULL;
}

static void start(pthread_t *thread, uint8_t *stack, void *(*what)(void *), void *given)
{
    pthread_attr_t with;
    if (pthread_attr_init(&with) || pthread_attr_setstack(&with, stack, BENCH_STACK_SIZE) || pthread_create(thread, &with, what, given))
        fail("no thread");
    pthread_attr_destroy(&with);
}

static void *nothing(void *given)
{
    return given;
}

/* What a thread takes of its stack without a call. */
static size_t used_alone(void)
{
    pthread_t thread;
    uint8_t *stack = make_stack();
    start(&thread, stack, nothing, NULL);
    pthread_join(thread, NULL);
    return used(stack);
}

int main(void)
{
    struct caller alone, callers[THREADS];
    pthread_t threads[THREADS];
    uint8_t *stacks[THREADS];
    pthread_barrier_t together;
    size_t most = 0;
    make_text();
    prepare(&alone);
    if (bench_check((const uint8_t *)text, TEXT, alone.bench, BENCH_SIZE) != BENCH_ACCEPTED)
        fail("the bench is refused");
    call_all(&alone);
    if (alone.fired < LINES * ENTITIES / 4)
        fail("the lines fire too little to be compared");
    pthread_barrier_init(&together, NULL, THREADS);
    for (int i = 0; i < THREADS; i++) {
        prepare(&callers[i]);
        callers[i].start = &together;
        stacks[i] = make_stack();
        start(&threads[i], stacks[i], run, &callers[i]);
    }
    for (int i = 0; i < THREADS; i++) {
        pthread_join(threads[i], NULL);
        if (callers[i].sum != alone.sum)
            fail("a thread among others got other answers than alone");
        if (used(stacks[i]) > most)
            most = used(stacks[i]);
    }
    printf("%d threads at once: the same as alone; of %u bytes of stack %zu used, %zu of them by the calls\n", THREADS, BENCH_STACK_SIZE, most,
           most - used_alone());
    if (most + MARGIN > BENCH_STACK_SIZE)
        fail("BENCH_STACK_SIZE leaves too little room");
    return 0;
}
