/*
 * timing.h: what every benchmark program shares: timing several candidates side by side, and the table
 * that the figures are printed in.
 */
#ifndef TIMING_H
#define TIMING_H

/* Most candidates in one table. */
#define TIMING_MOST 4

/* One way of doing a piece of work; run does it once with the argument given. */
struct candidate {
    void (*run)(void *arg);
    void *arg;
};

/* The time in nanoseconds since some moment. */
double now_ns(void);

/*
 * Sets best[i] to the nanoseconds of one run of candidate i: the least of several repetitions. The
 * candidates take turns within each repetition, so that a slow spell of the machine meets them all.
 * A candidate whose run is NULL is passed over, and its figure is 0.
 */
void time_candidates(const struct candidate *candidates, int count, double *best);

/*
 * Prints the head of a Markdown table: the column of labels, one column for each of the count names,
 * and the column of the first candidate's time divided by the second's.
 */
void table_head(const char *title, const char *const *names, int count);

/* Prints one row, with the figures of the candidates and the ratio. A figure of 0 is printed as -. */
void table_row(const char *label, const double *figures, int count, double ratio);

#endif
