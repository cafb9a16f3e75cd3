/* What the readers of this directory share: the command `bench ROUNDS WORK..`. A work is `parse`, `all` (also the value
   of each header, and the decoded body of each part), `values` (subject, From, To, Date, message id, and the names of all
   files), or one of these for each mail of a mailbox, such as `mailbox-parse`. */
#ifndef BENCH_H
#define BENCH_H

#ifndef _GNU_SOURCE
#define _GNU_SOURCE
#endif
#include <stdio.h>
#include <stdlib.h>
#include <string.h>
#include <time.h>

/* The timed work on `size` bytes. Returns how much it made, so that no compiler leaves it out. */
typedef size_t (*reading)(const char *bytes, size_t length);

/* A work and its name. */
struct work {
    const char *name;
    reading read;
};

/* The whole of standard input, and its length; ends the program where it cannot be read. */
static inline char *bench_input(size_t *length)
{
    size_t capacity = 1 << 20, used = 0, read;
    char *bytes = (char *)malloc(capacity);
    while (bytes && (read = fread(bytes + used, 1, capacity - used, stdin)) > 0) {
        used += read;
        if (used == capacity)
            bytes = (char *)realloc(bytes, capacity *= 2);
    }
    if (!bytes || ferror(stdin)) {
        fprintf(stderr, "standard input cannot be read\n");
        exit(2);
    }
    *length = used;
    return bytes;
}

/* Which of two times is less. */
static inline int bench_order(const void *left, const void *right)
{
    double one = *(const double *)left, other = *(const double *)right;
    return (one > other) - (one < other);
}

/* Times `rounds` rounds of a work, and prints the least and the median, in nanoseconds for each byte. */
static inline void bench_work(const struct work *work, const char *bytes, size_t length, size_t rounds)
{
    double *times = (double *)malloc(rounds * sizeof *times);
    size_t made = 0;
    if (!times)
        exit(2);
    for (size_t round = 0; round < rounds; round++) {
        struct timespec start, end;
        clock_gettime(CLOCK_MONOTONIC, &start);
        made = work->read(bytes, length);
        clock_gettime(CLOCK_MONOTONIC, &end);
        times[round] = (end.tv_sec - start.tv_sec) * 1e9 + (end.tv_nsec - start.tv_nsec);
        times[round] /= length ? length : 1;
    }
    qsort(times, rounds, sizeof *times, bench_order);
    printf("%s min %.3f median %.3f ns/byte, makes %zu\n", work->name, times[0], times[rounds / 2], made);
    free(times);
}

/* Runs the command over the works of a reader; the last one has no name. Returns the exit status. */
static inline int bench(int count, char **arguments, const struct work *works)
{
    size_t rounds = count > 2 && !strcmp(arguments[1], "bench") ? strtoul(arguments[2], NULL, 10) : 0;
    size_t length;
    char *bytes;
    if (!rounds) {
        fprintf(stderr, "usage: %s bench ROUNDS WORK..\n", arguments[0]);
        return 2;
    }
    bytes = bench_input(&length);
    for (int at = 3; at < count; at++) {
        const struct work *work = works;
        while (work->name && strcmp(work->name, arguments[at]))
            work++;
        if (!work->name) {
            fprintf(stderr, "%s: no work has the name %s\n", arguments[0], arguments[at]);
            return 2;
        }
        bench_work(work, bytes, length, rounds);
    }
    free(bytes);
    return 0;
}

/* The first line of a mailbox that separates mails, from the start of a line onwards; or its end. */
static inline const char *bench_separator(const char *at, const char *end)
{
    while (end - at >= 5 && memcmp(at, "From ", 5)) {
        const char *line_end = (const char *)memmem(at, end - at, "\nFrom ", 6);
        if (!line_end)
            return end;
        at = line_end + 1;
    }
    return end - at >= 5 ? at : end;
}

/* Reads each mail of a mailbox on its own: what follows each line that begins with `From `. */
static inline size_t bench_mailbox(const char *bytes, size_t length, reading read)
{
    const char *end = bytes + length, *at = bench_separator(bytes, end);
    size_t made = 0;
    while (at < end) {
        const char *line_end = (const char *)memchr(at, '\n', end - at);
        const char *start = line_end ? line_end + 1 : end;
        at = bench_separator(start, end);
        made += read(start, at - start);
    }
    return made;
}

#endif
