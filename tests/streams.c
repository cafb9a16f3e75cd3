/* Changes what the calls read and write do to standard input and standard output: a library to be loaded
 * before a program by LD_PRELOAD. It is written for the GNU C library.
 *
 * STREAM_STEP=N        a call moves at most N bytes
 * STREAM_READ=N        the Nth read, counted from 1, fails with the error STREAM_ERROR, a number of errno.h
 * STREAM_WRITE=N       the Nth write fails so; where the error is 0, it takes no byte
 * STREAM_INTERRUPTS=N  each read but every third is interrupted, and so is each write, until N writes were
 * STREAM_REPORT=F      at the end writes `READS BYTES WRITES` to the file F: how many reads there were, how
 *                      many bytes they gave, and how many writes there were, those that failed among them
 */
#define _GNU_SOURCE
#include <errno.h>
#include <stdio.h>
#include <stdlib.h>
#include <unistd.h>

extern ssize_t __read(int file, void *bytes, size_t size);
extern ssize_t __write(int file, const void *bytes, size_t size);

static unsigned long reads;
static unsigned long bytes_read;
static unsigned long writes;
static unsigned long interrupted_writes;

static unsigned long number(const char *name)
{
    const char *text = getenv(name);
    return text ? strtoul(text, NULL, 10) : 0;
}

static size_t at_most_step(size_t size)
{
    size_t step = number("STREAM_STEP");
    return step && step < size ? step : size;
}

static ssize_t failed(int error)
{
    errno = error;
    return error ? -1 : 0;
}

__attribute__((destructor)) static void report(void)
{
    const char *name = getenv("STREAM_REPORT");
    FILE *file = name ? fopen(name, "w") : NULL;
    if (file) {
        fprintf(file, "%lu %lu %lu\n", reads, bytes_read, writes);
        fclose(file);
    }
}

ssize_t read(int file, void *bytes, size_t size)
{
    if (file != STDIN_FILENO)
        return __read(file, bytes, size);
    reads++;
    if (reads == number("STREAM_READ"))
        return failed(number("STREAM_ERROR"));
    if (number("STREAM_INTERRUPTS") && reads % 3 != 0)
        return failed(EINTR);
    ssize_t count = __read(file, bytes, at_most_step(size));
    if (count > 0)
        bytes_read += count;
    return count;
}

ssize_t write(int file, const void *bytes, size_t size)
{
    if (file != STDOUT_FILENO)
        return __write(file, bytes, size);
    writes++;
    if (writes == number("STREAM_WRITE"))
        return failed(number("STREAM_ERROR"));
    if (interrupted_writes < number("STREAM_INTERRUPTS") && writes % 3 != 0) {
        interrupted_writes++;
        return failed(EINTR);
    }
    return __write(file, bytes, at_most_step(size));
}
