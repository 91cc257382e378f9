/* A clock that says what the environment says: CLOCK is the seconds since 1970. A clock that only counts goes on as ever. */
#define _GNU_SOURCE
#include <stdlib.h>
#include <sys/syscall.h>
#include <time.h>
#include <unistd.h>

int clock_gettime(clockid_t clock, struct timespec *now)
{
    const char *seconds = getenv("CLOCK");

    if (clock != CLOCK_REALTIME || seconds == NULL)
        return (int)syscall(SYS_clock_gettime, clock, now);
    now->tv_sec = strtoll(seconds, NULL, 10);
    now->tv_nsec = 0;
    return 0;
}
