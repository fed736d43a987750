/* A program written for the names from before version 1 of the interface: it is built as it is, with one line more. */
#define BENCH_OLD_NAMES
#include "bench_engine.h"

#include <stdio.h>

static uint8_t bench[BENCH_SIZE], state[BENCH_STATE_SIZE];

int main(void)
{
    static const uint8_t text[] = "rules end";
    uint64_t (*class_of)(uint8_t) = byte_class;
    int holds = bench_check(text, sizeof text - 1, bench, sizeof bench) == 0 && state_fresh(bench, sizeof bench, state, sizeof state) == 0
        && state_fresh(bench, 0, state, sizeof state) == 31 && class_of('a') == BENCH_BYTE_LETTER && byte_class('#') == BENCH_BYTE_HASH;
    puts(holds ? "old names: they are there" : "failed: old names");
    return !holds;
}
