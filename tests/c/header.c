/* The header by itself: it is built as C99, C11 and C++ with every warning, included twice, and in two units that are linked together. Then what it
 * says of the numbers and the tag is tested. */
#include "bench_engine.h"
#include "bench_engine.h"

#include <limits.h>
#include <stdio.h>
#include <stdlib.h>
#include <string.h>

/* header_again.c: the same function in another unit. */
#ifdef __cplusplus
extern "C"
#endif
const char *message_elsewhere(unsigned number);

static const unsigned table[] = {
    BENCH_ACCEPTED,          BENCH_TEXT_TOO_LONG,     BENCH_WORD_NOT_ALLOWED, BENCH_WORD_MISPLACED, BENCH_TOO_MANY,     BENCH_DECLARED_AGAIN,
    BENCH_NAME_UNKNOWN,      BENCH_ATTRIBUTE_NOT_SET, BENCH_KINDS_UNFIT,      BENCH_RECORD_ILL_FORMED, BENCH_NAMES_ILL_FORMED, BENCH_VALUE_REFUSED,
    BENCH_NUMBER_OUT_OF_TURN, BENCH_READINGS_DIFFER,  BENCH_MEMORY_SHORT,     BENCH_NO_BENCH,       BENCH_NO_STATE,     BENCH_CELLS_REFUSED,
    BENCH_SENDER_NINTH,      BENCH_SENDER_ILL_FORMED, BENCH_RANK_TOO_HIGH,
};
static const unsigned numbers[] = {0, 11, 12, 13, 14, 15, 16, 17, 18, 21, 22, 23, 24, 25, 31, 32, 33, 41, 42, 43, 44};
enum { NUMBERS = sizeof numbers / sizeof numbers[0] };

static unsigned checks, failed;

static void check(int holds, const char *what)
{
    checks++;
    if (holds)
        return;
    failed++;
    printf("failed: %s\n", what);
}

static int is_listed(unsigned number)
{
    for (int i = 0; i < NUMBERS; i++)
        if (numbers[i] == number)
            return 1;
    return 0;
}

/* Each number of the table has a sentence of its own; all others share one. */
static void check_message(unsigned number, const char *none)
{
    const char *message = bench_message(number);
    check(message != NULL && strlen(message) > 0, "a sentence for every number");
    check(strcmp(message, message_elsewhere(number)) == 0, "the same sentence in both units");
    check((strcmp(message, none) == 0) == !is_listed(number), "a sentence of its own for each number of the table, and for no other");
    for (unsigned other = 0; other < number; other++)
        check(!is_listed(number) || strcmp(message, bench_message(other)) != 0, "no sentence twice");
}

static void check_answers(void)
{
    uint64_t refused = 13 + 256 * (uint64_t)32768, name = 256 * (uint64_t)24 + 65536 * (uint64_t)32743;
    check(BENCH_NUMBER(refused) == BENCH_WORD_MISPLACED && BENCH_REST(refused) == 32768, "an answer taken apart");
    check(BENCH_NAME_LENGTH(name) == 24 && BENCH_NAME_OFFSET(name) == 32743 && BENCH_NUMBER(name) == 0, "a name's answer taken apart");
    check(BENCH_NAME_LENGTH(0u) == 0 && BENCH_NAME_OFFSET(0u) == 0, "no name");
    check(BENCH_SHEET_SIZE(0) == 2430 && BENCH_SHEET_SIZE(1000000000) == (size_t)162000002430, "the size of a sheet");
}

static void check_tag(void)
{
    char wanted[40];
    snprintf(wanted, sizeof wanted, "bench-state %d\n", BENCH_STATE_FORM);
    check(strcmp(BENCH_STATE_TAG, wanted) == 0, "the tag has the form's number");
    check(sizeof BENCH_STATE_TAG - 1 == BENCH_STATE_TAG_SIZE, "the tag has its size");
    check(BENCH_INTERFACE_VERSION >= 1, "the version of the interface");
}

int main(void)
{
    const char *none = bench_message(255);
    check(sizeof table == sizeof numbers && memcmp(table, numbers, sizeof table) == 0, "the names of the numbers");
    for (unsigned number = 0; number < 256; number++)
        check_message(number, none);
    check_message(256 + 13, none);
    check(strcmp(bench_message(UINT_MAX), none) == 0, "a sentence for the greatest number");
    check_answers();
    check_tag();
    printf("header: %u checks, %u failed\n", checks, failed);
    return failed != 0;
}
