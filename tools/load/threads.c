/* What threads that only compute gain, started and joined as workers are: threads N.. prints how many times one's work N do. */
#include <pthread.h>
#include <stdio.h>
#include <stdlib.h>
#include <time.h>

enum { ROUNDS = 60, STEPS = 600000, MOST = 64 };

static double seconds(void) {
    struct timespec now;
    clock_gettime(CLOCK_MONOTONIC, &now);
    return now.tv_sec + now.tv_nsec * 1e-9;
}

static void *compute(void *unused) {
    volatile unsigned sum = 0;
    for (unsigned step = 0; step < STEPS; step++) sum = sum * 31 + step;
    return unused;
}

/* The seconds that so many threads take for one part each. */
static double together(int count) {
    pthread_t others[MOST];
    double began = seconds();
    for (int at = 1; at < count; at++)
        if (pthread_create(&others[at], NULL, compute, NULL)) exit(1);
    compute(NULL);
    for (int at = 1; at < count; at++) pthread_join(others[at], NULL);
    return seconds() - began;
}

int main(int words, char **word) {
    struct timespec rest = {0, 3000000};
    for (int at = 1; at < words; at++) {
        int count = atoi(word[at]);
        double one = 0, all = 0;
        if (count < 1 || count > MOST) return 2;
        for (int round = 0; round < ROUNDS; round++) {
            one += together(1);
            all += together(count);
            nanosleep(&rest, NULL);
        }
        printf("%d threads that only compute: %.2f times one\n", count, count * one / all);
    }
    return 0;
}
