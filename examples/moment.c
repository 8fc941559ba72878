/* Stands before clock_gettime, and gives as the time of day the second that AT has, where it is set. */
#define _GNU_SOURCE
#include <stdlib.h>
#include <sys/syscall.h>
#include <time.h>
#include <unistd.h>

int clock_gettime(clockid_t clock, struct timespec *time) {
    const char *at = getenv("AT");
    if (at == NULL || clock != CLOCK_REALTIME) {
        return (int)syscall(SYS_clock_gettime, clock, time);
    }
    time->tv_sec = atol(at);
    time->tv_nsec = 0;
    return 0;
}
