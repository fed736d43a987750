/* How much stack the proved reader takes: the deepest files that the grammar allows, read on a thread whose stack was painted before. */
#include "readers.h"
#include <pthread.h>
#include <stdio.h>
#include <string.h>

enum { STACK = 1 << 18, PAINT = 0xa5, OPENERS = 16 };
static uint8_t stack[STACK] __attribute__((aligned(4096)));
static char text[2048];
static uint8_t classes[2048], lengths[2048];
static uint16_t offsets[2048];
static uint32_t values[2048];
static uint64_t answer;
static uint8_t *top;

/* Everything below this frame is the reader's. */
static __attribute__((noinline)) void *reading(void *unused) {
    top = __builtin_frame_address(0);
    answer = measure_text((const uint8_t *)text, strlen(text), classes, 2048, offsets, 2048, lengths, 2048, values, 2048);
    return unused;
}

/* The bytes of stack that reading `text` takes; 0 if it is refused. */
static size_t used(void) {
    pthread_t thread;
    pthread_attr_t attr;
    memset(stack, PAINT, STACK);
    pthread_attr_init(&attr);
    pthread_attr_setstack(&attr, stack, STACK);
    if (pthread_create(&thread, &attr, reading, NULL) || pthread_join(thread, NULL)) return 0;
    if ((answer & 255) != 0) return 0;
    uint8_t *low = stack;
    while (*low == PAINT) low++;
    return (size_t)(top - low);
}

static void repeat(const char *what, int n) {
    while (n-- > 0) strcat(text, what);
}

int main(void) {
    static const char *const open[] = {"( ", "real ( ", "- "}, *const close[] = {") ", ") ", ""};
    size_t most = 0;
    for (int kind = 0; kind < 3; kind++) {
        for (int outside = 0; outside <= OPENERS; outside++) {
            strcpy(text, "rules when ");
            repeat("( ", outside);
            strcat(text, "event e from x with a = 1 value = ");
            repeat(open[kind], OPENERS - outside);
            strcat(text, "x.y ");
            repeat(close[kind], OPENERS - outside);
            repeat(") ", outside);
            strcat(text, "trigger action a ( ");
            repeat(open[kind], OPENERS);
            strcat(text, "1 ");
            repeat(close[kind], OPENERS);
            strcat(text, ") on x end end");
            size_t n = used();
            if (n == 0) { printf("refused: %s\n", text); return 1; }
            if (n > most) most = n;
        }
    }
    printf("stack: at most %zu bytes\n", most);
    return 0;
}
