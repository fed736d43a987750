/* A second unit with the header in it, for header.c. */
#include "bench_engine.h"

#ifdef __cplusplus
extern "C"
#endif
const char *message_elsewhere(unsigned number);

const char *message_elsewhere(unsigned number)
{
    return bench_message(number);
}
