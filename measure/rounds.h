/* Things timed in rounds, so that a change of the machine's pace meets all of them; who includes it has defined _POSIX_C_SOURCE. */

#ifndef ROUNDS_H
#define ROUNDS_H

#include <stdio.h>
#include <time.h>

/* How many rounds are measured, of which the least counts. */
#define ROUNDS 7

/* How many nanoseconds a measurement lasts at least. */
#define SHORTEST 50000000.0

/* Something timed: how many times it is done in a measurement, and the least nanoseconds that it took once. */
struct timed {
    unsigned long times;
    double least;
};

/* Does the thing with this number so many times. */
typedef void repeater(unsigned number, unsigned long times);

/* The processor time of the program so far in nanoseconds. */
static inline double now(void)
{
    struct timespec time;
    clock_gettime(CLOCK_PROCESS_CPUTIME_ID, &time);
    return (double)time.tv_sec * 1e9 + (double)time.tv_nsec;
}

/* The nanoseconds that something takes so many times. */
static inline double nanoseconds(repeater *repeat, unsigned number, unsigned long times)
{
    double start = now();
    repeat(number, times);
    return now() - start;
}

/* The nanoseconds that something takes once, measured over as many times as before, or over more where those end too soon. */
static inline double time_of(repeater *repeat, unsigned number, unsigned long *times)
{
    double lasted = nanoseconds(repeat, number, *times);
    while (lasted < SHORTEST) {
        *times *= 2;
        lasted = nanoseconds(repeat, number, *times);
    }
    return lasted / (double)*times;
}

/* Times so many things; a round goes over all of them, so that rounds lie far apart. */
static inline void take_times(struct timed *timed, unsigned count, repeater *repeat)
{
    for (unsigned turn = 0; turn < ROUNDS * count; turn++) {
        struct timed *one = &timed[turn % count];
        one->times += one->times == 0;
        double once = time_of(repeat, turn % count, &one->times);
        if (turn < count || once < one->least)
            one->least = once;
    }
}

/* Prints how many rounds there are, and how many milliseconds a measurement lasts at least. */
static inline void print_rounds(void)
{
    printf("rounds %d %.0f\n", ROUNDS, SHORTEST / 1e6);
}

#endif
