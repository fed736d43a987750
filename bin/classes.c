/* Prints the class of each byte as the engine has it: 256 lines, the byte and its class. bin/bench --classes builds and calls it.
 *
 * Status: 0 all is printed; 3 it could not be, which is told on standard error. */
#include "bench_engine.h"

#include <inttypes.h>
#include <stdio.h>

int main(void)
{
    for (unsigned byte = 0; byte < 256; byte++)
        printf("%u %" PRIu64 "\n", byte, bench_byte_class((uint8_t)byte));
    /* What is printed has arrived only when standard output could be closed. */
    if (ferror(stdout) || fclose(stdout) != 0) {
        fprintf(stderr, "classes: standard output: not all could be written\n");
        return 3;
    }
    return 0;
}
