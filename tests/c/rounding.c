/* The floating-point mode of the caller is that of the calls, as the header says. With another direction of rounding, or with subnormals flushed
 * to 0, rows have other reals; with exceptions trapped a call is interrupted; with the mode restored rows are again those that the engine promises.
 * Only for x86-64.
 *
 *     rounding          started as every program is
 *     rounding flushed  started with subnormals flushed, as start-up code of -ffast-math does it */
#define _XOPEN_SOURCE 700
#include "bench_engine.h"

#include <fenv.h>
#include <setjmp.h>
#include <signal.h>
#include <stdio.h>
#include <stdlib.h>
#include <string.h>
#include <xmmintrin.h>

/* Bits of MXCSR: results that are subnormal become 0, operands that are subnormal are taken as 0; inexact results, divisions by 0 do not trap. */
enum { FLUSH_TO_ZERO = 0x8000, DENORMALS_ARE_ZERO = 0x0040, INEXACT_MASKED = 0x1000, ZERO_DIVISOR_MASKED = 0x0200 };

static uint8_t bench[BENCH_SIZE], state[BENCH_STATE_SIZE], row[BENCH_ROW_SIZE];
static unsigned checks, failed;

/* Subnormals come in as readings. */
static const char TEXT[] =
    "interface P { event x : real event y : real action third ( real ) action tenth ( real ) action half ( real ) action twice ( real ) } "
    "entity p : P { } rules when event x from p value changed trigger action third ( 1r / 3r ) on p , action tenth ( 1r / 10r ) on p , "
    "action half ( p.x / 2r ) on p , action twice ( p.y * 2r ) on p end end";

#define PROMISED "a 1 3fd5555555555555 3fb999999999999a 0008000000000000 001ffffffffffffe"

/* A division by 0 is unset, so nothing is fired. */
static const char ZERO_DIVISOR[] = "interface P { event x : real event y : real action none ( real ) } entity p : P { } "
                                   "rules when event x from p value changed trigger action none ( 1r / 0r ) on p end end";
#define NOTHING_FIRED "a 1 -"

/* The least number that is not subnormal, whose half is; and a subnormal, whose double is not. */
#define LINE "a 1 0010000000000000 000fffffffffffff"

static void start(const char *text)
{
    if (BENCH_NUMBER(bench_check((const uint8_t *)text, strlen(text), bench, sizeof bench)) != BENCH_ACCEPTED) {
        printf("failed: the bench of the test is refused\n");
        exit(1);
    }
}

/* The row of the line from a fresh state, in the mode that is set now. */
static void check(const char *wanted, const char *what)
{
    static const char names[] = "by n p.x p.y", line[] = LINE;
    uint64_t answer;
    bench_fresh(bench, sizeof bench, state, sizeof state);
    answer = bench_line(bench, sizeof bench, state, sizeof state, (const uint8_t *)names, sizeof names - 1, (const uint8_t *)line, sizeof line - 1,
                        row, sizeof row);
    checks++;
    if (BENCH_NUMBER(answer) == BENCH_ACCEPTED && BENCH_REST(answer) == strlen(wanted) && memcmp(row, wanted, strlen(wanted)) == 0)
        return;
    failed++;
    printf("failed: %s: %.*s, not %s\n", what, (int)BENCH_REST(answer), (const char *)row, wanted);
}

static void check_promised(const char *what)
{
    check(PROMISED, what);
}

static void check_restored(void)
{
    fesetenv(FE_DFL_ENV);
    check_promised("the default mode, restored");
}

static void check_modes(void)
{
    fesetround(FE_UPWARD);
    check("a 1 3fd5555555555556 3fb999999999999a 0008000000000000 001ffffffffffffe", "rounded upward");
    fesetround(FE_TONEAREST);
    check_promised("rounded to nearest again");
    fesetround(FE_DOWNWARD);
    check("a 1 3fd5555555555555 3fb9999999999999 0008000000000000 001ffffffffffffe", "rounded downward");
    check_restored();
    fesetround(FE_TOWARDZERO);
    check("a 1 3fd5555555555555 3fb9999999999999 0008000000000000 001ffffffffffffe", "rounded toward zero");
    check_restored();
    _mm_setcsr(_mm_getcsr() | FLUSH_TO_ZERO);
    check("a 1 3fd5555555555555 3fb999999999999a 0000000000000000 001ffffffffffffe", "subnormal results flushed");
    check_restored();
    _mm_setcsr(_mm_getcsr() | DENORMALS_ARE_ZERO);
    check("a 1 3fd5555555555555 3fb999999999999a 0008000000000000 0000000000000000", "subnormal operands taken as 0");
    check_restored();
}

static sigjmp_buf trapped;

static void on_trap(int signal)
{
    siglongjmp(trapped, signal);
}

/* With an exception trapped the call is interrupted where it comes up. */
static void check_trap(const char *text, unsigned masked, const char *promised)
{
    volatile int signal_got;
    start(text);
    check(promised, "a bench with exceptions, none of them trapped");
    signal(SIGFPE, on_trap);
    signal_got = sigsetjmp(trapped, 1);
    if (signal_got == 0) {
        _mm_setcsr(_mm_getcsr() & ~masked);
        check(promised, "a call that should have been interrupted");
    }
    checks++;
    if (signal_got != SIGFPE) {
        failed++;
        printf("failed: no trap\n");
    }
    fesetenv(FE_DFL_ENV);
    check(promised, "the default mode, restored after a trap");
}

static void check_flushed_start(void)
{
    check("a 1 3fd5555555555555 3fb999999999999a 0000000000000000 0000000000000000", "started with subnormals flushed");
    check_restored();
}

int main(int count, char **words)
{
    int flushed = count > 1 && strcmp(words[1], "flushed") == 0;
    start(TEXT);
    if (flushed && !(_mm_getcsr() & FLUSH_TO_ZERO)) {
        printf("the start-up code of this compiler's -ffast-math flushes nothing\n");
        return 0;
    }
    if (flushed)
        check_flushed_start();
    else
        check_promised("the mode that a program starts with");
    check_modes();
    check_trap(TEXT, INEXACT_MASKED, PROMISED);
    check_trap(ZERO_DIVISOR, ZERO_DIVISOR_MASKED, NOTHING_FIRED);
    printf("rounding: %u rows under modes of floating point, %u failed\n", checks, failed);
    return failed != 0;
}
