// The processor time that this thread has used, in nanoseconds: what other programs use meanwhile is not in it.
#include <stdint.h>
#include <time.h>

uint64_t thread_time(void) {
    struct timespec now;
    clock_gettime(CLOCK_THREAD_CPUTIME_ID, &now);
    return (uint64_t)now.tv_sec * 1000000000 + (uint64_t)now.tv_nsec;
}
