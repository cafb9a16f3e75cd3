/* Counts the calls that ask the C library for memory, and refuses some of them: a library to be
 * loaded before a program by LD_PRELOAD. It is written for the GNU C library.
 *
 * REFUSE_AT=N     refuses the Nth call, counted from 1
 * REFUSE_FROM=N   refuses the Nth call and every one after it
 * REFUSE_ROWS=W   for the program mail_vectors, which tries a row of the suite again where memory ran out,
 *                 and asks for 48,611 bytes for the answer each time: refuses the first call after that,
 *                 the next time the second one, and so on, until a try meets no refusal; it stops where
 *                 the answer is freed. Where W is `from` it refuses the calls that follow, too
 * REFUSE_REPORT=F at the end writes `CALLS REFUSED` to the file F: how many calls there were, and how
 *                 many of them were refused, or with REFUSE_ROWS in how many tries one was
 *
 * The calls are malloc, calloc, realloc, posix_memalign and aligned_alloc. A call that is refused
 * returns what it returns where there is no memory. Pages that are taken by mmap are not counted.
 */
#define _GNU_SOURCE
#include <errno.h>
#include <stdatomic.h>
#include <stdio.h>
#include <stdlib.h>
#include <string.h>

/* The size of the buffer that mail_vectors allocates at the start of a row, and of no other: ANSWER_SIZE in
 * crates/mail_vectors/src/notation.rt. */
#define ANSWER_SIZE 48611

extern void *__libc_malloc(size_t size);
extern void *__libc_calloc(size_t count, size_t size);
extern void *__libc_realloc(void *block, size_t size);
extern void *__libc_memalign(size_t alignment, size_t size);
extern void __libc_free(void *block);

static unsigned long refuse_at;
static unsigned long refuse_from;
static const char *refuse_rows;
/* The answer of the row that is being tried, which call is refused in this try, how many calls there
 * were in it, and whether one was refused. */
static void *answer;
static unsigned long turn;
static unsigned long calls_in_turn;
static int is_turn_refused;
static atomic_ulong calls;
static atomic_ulong refused;

static unsigned long number(const char *name)
{
    const char *text = getenv(name);
    return text ? strtoul(text, NULL, 10) : 0;
}

/* Only calls of the program itself are counted, and none of the loader. */
static int is_counting;

__attribute__((constructor)) static void start(void)
{
    refuse_at = number("REFUSE_AT");
    refuse_from = number("REFUSE_FROM");
    refuse_rows = getenv("REFUSE_ROWS");
    is_counting = 1;
}

__attribute__((destructor)) static void report(void)
{
    is_counting = 0;
    const char *name = getenv("REFUSE_REPORT");
    FILE *file = name ? fopen(name, "w") : NULL;
    if (file) {
        fprintf(file, "%lu %lu\n", atomic_load(&calls), atomic_load(&refused));
        fclose(file);
    }
}

static int is_refused_in_row(void)
{
    if (!answer)
        return 0;
    calls_in_turn++;
    if (calls_in_turn < turn || (calls_in_turn > turn && strcmp(refuse_rows, "from") != 0))
        return 0;
    if (!is_turn_refused)
        atomic_fetch_add(&refused, 1);
    is_turn_refused = 1;
    return 1;
}

static void *answer_begins(void *block)
{
    answer = block;
    turn = is_turn_refused ? turn + 1 : 1;
    calls_in_turn = 0;
    is_turn_refused = 0;
    return block;
}

static int is_refused(void)
{
    if (!is_counting)
        return 0;
    unsigned long call = atomic_fetch_add(&calls, 1) + 1;
    if (refuse_rows)
        return is_refused_in_row();
    if (call != refuse_at && (refuse_from == 0 || call < refuse_from))
        return 0;
    atomic_fetch_add(&refused, 1);
    return 1;
}

void *malloc(size_t size)
{
    if (is_refused()) {
        errno = ENOMEM;
        return NULL;
    }
    void *block = __libc_malloc(size);
    return refuse_rows && size == ANSWER_SIZE ? answer_begins(block) : block;
}

void free(void *block)
{
    if (block && block == answer)
        answer = NULL;
    __libc_free(block);
}

void *calloc(size_t count, size_t size)
{
    if (is_refused()) {
        errno = ENOMEM;
        return NULL;
    }
    return __libc_calloc(count, size);
}

void *realloc(void *block, size_t size)
{
    if (is_refused()) {
        errno = ENOMEM;
        return NULL;
    }
    void *moved = __libc_realloc(block, size);
    if (moved && block && block == answer)
        answer = moved;
    return moved;
}

void *aligned_alloc(size_t alignment, size_t size)
{
    if (is_refused()) {
        errno = ENOMEM;
        return NULL;
    }
    return __libc_memalign(alignment, size);
}

int posix_memalign(void **block, size_t alignment, size_t size)
{
    if (is_refused())
        return ENOMEM;
    void *found = __libc_memalign(alignment, size);
    if (!found)
        return ENOMEM;
    *block = found;
    return 0;
}
