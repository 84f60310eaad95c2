#define _POSIX_C_SOURCE 199309L

#include "timing.h"

#include <stdio.h>
#include <time.h>

#define REPETITIONS 25
#define TURN_NS 4e6
#define LABEL_WIDTH 44
#define FIGURE_WIDTH 10

double now_ns(void)
{
    struct timespec t;

    clock_gettime(CLOCK_MONOTONIC, &t);
    return (double)t.tv_sec * 1e9 + (double)t.tv_nsec;
}

static double time_runs(const struct candidate *c, long runs)
{
    double start = now_ns();
    long i;

    for (i = 0; i < runs; i++)
        c->run(c->arg);
    return now_ns() - start;
}

/* As many runs as fill a turn, so that the clock's own cost does not show. */
static long runs_for_a_turn(const struct candidate *c)
{
    long runs = 1;

    while (time_runs(c, runs) < TURN_NS / 2)
        runs *= 2;
    return runs;
}

void time_candidates(const struct candidate *candidates, int count, double *best)
{
    long runs[TIMING_MOST];
    int i, repetition;

    for (i = 0; i < count; i++) {
        best[i] = 0;
        runs[i] = candidates[i].run ? runs_for_a_turn(&candidates[i]) : 0;
    }
    for (repetition = 0; repetition < REPETITIONS; repetition++) {
        for (i = 0; i < count; i++) {
            double once;

            if (runs[i] == 0)
                continue;
            once = time_runs(&candidates[i], runs[i]) / (double)runs[i];
            if (best[i] == 0 || once < best[i])
                best[i] = once;
        }
    }
}

static void rule(int width)
{
    int i;

    putchar(' ');
    for (i = 1; i < width; i++)
        putchar('-');
    fputs(": |", stdout);
}

void table_head(const char *title, const char *const *names, int count)
{
    int i;

    printf("\n| %-*s |", LABEL_WIDTH, title);
    for (i = 0; i < count; i++)
        printf(" %*s |", FIGURE_WIDTH, names[i]);
    printf(" %*s |\n| ", FIGURE_WIDTH, "time ratio");
    for (i = 0; i < LABEL_WIDTH; i++)
        putchar('-');
    fputs(" |", stdout);
    for (i = 0; i < count + 1; i++)
        rule(FIGURE_WIDTH);
    putchar('\n');
}

void table_row(const char *label, const double *figures, int count, double ratio)
{
    int i;

    printf("| %-*s |", LABEL_WIDTH, label);
    for (i = 0; i < count; i++) {
        if (figures[i] == 0)
            printf(" %*s |", FIGURE_WIDTH, "-");
        else
            printf(" %*.1f |", FIGURE_WIDTH, figures[i]);
    }
    printf(" %*.2f |\n", FIGURE_WIDTH, ratio);
    fflush(stdout);
}
