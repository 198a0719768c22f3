/* What is used here of C's header of this name, for the kit's compiler, which has no headers of its own. */
#ifndef TIME_H
#define TIME_H
struct timespec {
    long tv_sec, tv_nsec;
};
#define CLOCK_MONOTONIC 1
int clock_gettime(int clock, struct timespec *now);
#endif
