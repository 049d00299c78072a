/* The clock of a node that is checked: clock_gettime tells the milliseconds at the begin of the file that CLOCK names, and whoever wrote
   them there moves it. Every clock begins in 2026. Waits take as long as they would by the system's clock. */

#include <fcntl.h>
#include <stdint.h>
#include <stdlib.h>
#include <sys/mman.h>
#include <time.h>

static const time_t BEGIN = 1767225600;
static const volatile int64_t *milliseconds;

__attribute__((constructor)) static void open_clock(void)
{
    const char *name = getenv("CLOCK");
    int file = name ? open(name, O_RDONLY | O_CLOEXEC) : -1;
    void *there = mmap(0, sizeof *milliseconds, PROT_READ, MAP_SHARED, file, 0);
    if (there == MAP_FAILED)
        abort();
    milliseconds = there;
}

int clock_gettime(clockid_t clock, struct timespec *now)
{
    int64_t moved = *milliseconds;
    (void)clock;
    now->tv_sec = BEGIN + moved / 1000;
    now->tv_nsec = moved % 1000 * 1000000;
    return 0;
}
