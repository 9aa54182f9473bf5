/* Tells the moment that stands in the file CLOCK, in decimal seconds since 1970, as the time of day, and the second
   that stands in the file STEADY as that of the clock that nobody sets. Made a library that is loaded before the C
   library. */
#define _GNU_SOURCE
#include <dlfcn.h>
#include <stdio.h>
#include <stdlib.h>
#include <time.h>

int clock_gettime(clockid_t clock, struct timespec *told) {
    static int (*next)(clockid_t, struct timespec *);
    const char *name = clock == CLOCK_REALTIME ? "CLOCK" : clock == CLOCK_MONOTONIC ? "STEADY" : NULL;
    const char *path = name ? getenv(name) : NULL;
    FILE *file = path ? fopen(path, "r") : NULL;
    long long moment;
    if (file) {
        int read = fscanf(file, "%lld", &moment);
        fclose(file);
        if (read == 1) {
            *told = (struct timespec){.tv_sec = moment};
            return 0;
        }
    }
    if (!next)
        next = (int (*)(clockid_t, struct timespec *))dlsym(RTLD_NEXT, "clock_gettime");
    return next(clock, told);
}
