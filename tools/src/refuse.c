/* A library to be preloaded, which lets allocations, opens, reads, writes and starts of threads of a program fail.
 * tools/test-memory.sh builds and uses it.
 *
 *     cc -std=gnu11 -shared -fPIC -o refuse.so refuse.c -ldl
 *     LD_PRELOAD=./refuse.so REFUSE='read 2 1 EIO' PROGRAM WORD..
 *
 * REFUSE has four words:
 *   which calls     memory (malloc, calloc, realloc, aligned_alloc, posix_memalign), open, read, out (writes to descriptor 1),
 *                   notes (writes to descriptor 2) or thread (pthread_create)
 *   the first       the number of the first call that fails; the calls of each sort are counted from 1
 *   how many        how many calls fail, one after another; 0 for all from there on
 *   how             the name of an error as below; or `one`, for a read or write that succeeds with one byte; or `none`, for a
 *                   read or write that succeeds with no byte
 *
 * The first may also be FIRST-LAST/STEP: then the program is run once for each of these numbers, in a child of its own that begins
 * where the program does, which is much quicker than a new start. REFUSE_FOLDER names a folder with the files `wanted.out` and
 * `wanted.notes`. Each run writes into its files `out` and `notes`, and has 60 seconds. For each run one line goes to standard output:
 *
 *     NUMBER STATUS OUT NOTES
 *
 * STATUS is 128 + N if signal N ended it. OUT and NOTES are the first of these words that fits: `none` if nothing was written,
 * `whole` if it is what is wanted, `part` if it is a front of that, else `other: ` and the first line of what was written.
 *
 * REFUSE_COUNTS names a file of 6 * 8 bytes, into which the number of calls of each sort is put, in the order above, as whole
 * numbers of the machine. It is right whichever way the program ends. Without REFUSE no call fails.
 *
 * Calls from several threads are counted together. What the system does before the program begins isn't counted.
 */
#define _GNU_SOURCE
#include <dlfcn.h>
#include <errno.h>
#include <fcntl.h>
#include <pthread.h>
#include <stdarg.h>
#include <stdatomic.h>
#include <stddef.h>
#include <stdint.h>
#include <stdio.h>
#include <stdlib.h>
#include <string.h>
#include <sys/mman.h>
#include <sys/stat.h>
#include <sys/types.h>
#include <sys/wait.h>
#include <unistd.h>

enum sort { MEMORY, OPEN, READ, OUT, NOTES, THREAD, SORTS };
enum { ONE = -1, NONE = -2 };

static const char *const sorts[SORTS] = {"memory", "open", "read", "out", "notes", "thread"};

static const struct {
    const char *name;
    int how;
} ways[] = {
    {"ENOMEM", ENOMEM}, {"EIO", EIO},       {"ENOSPC", ENOSPC}, {"EINTR", EINTR}, {"EAGAIN", EAGAIN}, {"EPIPE", EPIPE},
    {"EACCES", EACCES}, {"EMFILE", EMFILE}, {"one", ONE},       {"none", NONE},
};

static int is_ready;
static enum sort refused = SORTS;
static int how;
static uint64_t first, last;
static _Atomic uint64_t own_counts[SORTS];
static _Atomic uint64_t *counts = own_counts;

static void *(*next_malloc)(size_t);
static void *(*next_calloc)(size_t, size_t);
static void *(*next_realloc)(void *, size_t);
static void (*next_free)(void *);
static void *(*next_aligned_alloc)(size_t, size_t);
static int (*next_posix_memalign)(void **, size_t, size_t);
static int (*next_open)(const char *, int, ...);
static ssize_t (*next_read)(int, void *, size_t);
static ssize_t (*next_write)(int, const void *, size_t);
static int (*next_pthread_create)(pthread_t *, const pthread_attr_t *, void *(*)(void *), void *);

/* dlsym may itself ask for memory: while it is asked, allocations come from here and are never given back. */
static char early[1 << 16];
static size_t early_used;
static int is_looking;

static void *take_early(size_t size)
{
    size = (size + 15) & ~(size_t)15;
    if (size > sizeof early - early_used)
        return NULL;
    early_used += size;
    return early + early_used - size;
}

static int is_early(const void *place)
{
    return (const char *)place >= early && (const char *)place < early + sizeof early;
}

#define LOOK_UP(name)                                                                                                          \
    do {                                                                                                                       \
        if (!next_##name) {                                                                                                    \
            is_looking = 1;                                                                                                    \
            *(void **)&next_##name = dlsym(RTLD_NEXT, #name);                                                                  \
            is_looking = 0;                                                                                                    \
        }                                                                                                                      \
    } while (0)

/* Counts a call. Gives 0 if it is to succeed, else how it fails. */
static int count(enum sort sort)
{
    uint64_t number;
    if (!is_ready)
        return 0;
    number = atomic_fetch_add(&counts[sort], 1) + 1;
    return sort == refused && number >= first && number <= last ? how : 0;
}

static void put(const char *text)
{
    ssize_t written = next_write(1, text, strlen(text));
    if (written < 0)
        _exit(125);
}

static void stop(const char *message)
{
    ssize_t written = next_write(2, message, strlen(message));
    (void)written;
    _exit(125);
}

/* A file whose bytes are all in memory. */
struct text {
    const char *bytes;
    size_t size;
};

static struct text text_of(const char *name)
{
    struct stat state;
    struct text text = {"", 0};
    int descriptor = next_open(name, O_RDONLY | O_CLOEXEC);
    if (descriptor < 0 || fstat(descriptor, &state))
        stop("refuse: a file of REFUSE_FOLDER can't be read\n");
    if (state.st_size > 0) {
        void *place = mmap(NULL, (size_t)state.st_size, PROT_READ, MAP_PRIVATE, descriptor, 0);
        if (place == MAP_FAILED)
            stop("refuse: a file of REFUSE_FOLDER can't be read\n");
        text.bytes = place;
        text.size = (size_t)state.st_size;
    }
    close(descriptor);
    return text;
}

/* Puts the word for what was written into `word`. */
static void compare(struct text wanted, const char *name, char *word, size_t size)
{
    struct text found = text_of(name);
    if (found.size == 0)
        snprintf(word, size, "none");
    else if (found.size <= wanted.size && !memcmp(found.bytes, wanted.bytes, found.size))
        snprintf(word, size, found.size == wanted.size ? "whole" : "part");
    else {
        const char *end = memchr(found.bytes, '\n', found.size);
        snprintf(word, size, "other: %.*s", (int)(end ? end - found.bytes : (ptrdiff_t)(found.size % 200)), found.bytes);
    }
    if (found.size)
        munmap((void *)found.bytes, found.size);
}

static void redirect(int descriptor, const char *name)
{
    int file = next_open(name, O_WRONLY | O_CREAT | O_TRUNC, 0600);
    if (file < 0 || dup2(file, descriptor) < 0)
        stop("refuse: a file of REFUSE_FOLDER can't be written\n");
    close(file);
}

/* Runs the program once for each number. Returns in the children alone. */
static void run_each(uint64_t from, uint64_t to, uint64_t step, uint64_t many)
{
    const char *folder = getenv("REFUSE_FOLDER");
    char out[4096], notes[4096], out_word[256], notes_word[256], line[600];
    struct text wanted_out, wanted_notes;
    if (!folder || strlen(folder) > 4000)
        stop("refuse: REFUSE_FOLDER doesn't name a folder\n");
    snprintf(out, sizeof out, "%s/wanted.out", folder);
    snprintf(notes, sizeof notes, "%s/wanted.notes", folder);
    wanted_out = text_of(out);
    wanted_notes = text_of(notes);
    snprintf(out, sizeof out, "%s/out", folder);
    snprintf(notes, sizeof notes, "%s/notes", folder);
    for (uint64_t number = from; number <= to; number += step) {
        int status;
        pid_t child = fork();
        if (child < 0)
            stop("refuse: no process can be started\n");
        if (child == 0) {
            redirect(1, out);
            redirect(2, notes);
            alarm(60);
            first = number;
            last = many ? number + many - 1 : UINT64_MAX;
            return;
        }
        while (waitpid(child, &status, 0) < 0)
            if (errno != EINTR)
                stop("refuse: a process can't be waited for\n");
        status = WIFSIGNALED(status) ? 128 + WTERMSIG(status) : WEXITSTATUS(status);
        compare(wanted_out, out, out_word, sizeof out_word);
        compare(wanted_notes, notes, notes_word, sizeof notes_word);
        snprintf(line, sizeof line, "%llu %d %s %s\n", (unsigned long long)number, status, out_word, notes_word);
        put(line);
    }
    _exit(0);
}

static void read_order(const char *order)
{
    char text[128], *word, *numbers, *rest, *end;
    uint64_t many, to, step;
    size_t i;
    if (strlen(order) >= sizeof text)
        stop("refuse: REFUSE is too long\n");
    strcpy(text, order);
    word = strtok_r(text, " ", &rest);
    for (i = 0; i < SORTS; i++)
        if (word && !strcmp(word, sorts[i]))
            refused = (enum sort)i;
    numbers = strtok_r(NULL, " ", &rest);
    word = strtok_r(NULL, " ", &rest);
    many = word ? strtoull(word, NULL, 10) : 0;
    word = strtok_r(NULL, " ", &rest);
    for (i = 0; i < sizeof ways / sizeof ways[0]; i++)
        if (word && !strcmp(word, ways[i].name))
            how = ways[i].how;
    if (refused == SORTS || how == 0 || (how < 0 && (refused < READ || refused == THREAD)))
        stop("refuse: REFUSE is not four words: which calls, the first, how many, how\n");
    first = strtoull(numbers, &end, 10);
    if (*end == '\0') {
        last = many ? first + many - 1 : UINT64_MAX;
        return;
    }
    to = *end == '-' ? strtoull(end + 1, &end, 10) : 0;
    step = *end == '/' ? strtoull(end + 1, &end, 10) : 0;
    if (*end != '\0' || step == 0)
        stop("refuse: the first is neither a number nor FIRST-LAST/STEP\n");
    run_each(first, to, step, many);
}

__attribute__((constructor)) static void begin(void)
{
    const char *order = getenv("REFUSE"), *file = getenv("REFUSE_COUNTS");
    LOOK_UP(malloc);
    LOOK_UP(calloc);
    LOOK_UP(realloc);
    LOOK_UP(free);
    LOOK_UP(aligned_alloc);
    LOOK_UP(posix_memalign);
    LOOK_UP(open);
    LOOK_UP(read);
    LOOK_UP(write);
    LOOK_UP(pthread_create);
    if (file) {
        int descriptor = next_open(file, O_RDWR | O_CLOEXEC);
        void *place = MAP_FAILED;
        if (descriptor >= 0) {
            place = mmap(NULL, sizeof own_counts, PROT_READ | PROT_WRITE, MAP_SHARED, descriptor, 0);
            close(descriptor);
        }
        if (place == MAP_FAILED)
            stop("refuse: REFUSE_COUNTS can't be written\n");
        counts = place;
    }
    if (order)
        read_order(order);
    is_ready = 1;
}

static void *no_memory(void)
{
    errno = ENOMEM;
    return NULL;
}

static ssize_t fails(int fault)
{
    errno = fault;
    return -1;
}

void *malloc(size_t size)
{
    if (is_looking)
        return take_early(size);
    LOOK_UP(malloc);
    return count(MEMORY) ? no_memory() : next_malloc(size);
}

void *calloc(size_t number, size_t size)
{
    if (is_looking)
        return number && size > SIZE_MAX / number ? NULL : take_early(number * size);
    LOOK_UP(calloc);
    return count(MEMORY) ? no_memory() : next_calloc(number, size);
}

void *realloc(void *place, size_t size)
{
    LOOK_UP(realloc);
    if (is_early(place)) {
        void *other = malloc(size);
        size_t most = (size_t)(early + sizeof early - (char *)place);
        if (other)
            memcpy(other, place, size < most ? size : most);
        return other;
    }
    return count(MEMORY) ? no_memory() : next_realloc(place, size);
}

void free(void *place)
{
    if (is_early(place))
        return;
    LOOK_UP(free);
    next_free(place);
}

void *aligned_alloc(size_t alignment, size_t size)
{
    LOOK_UP(aligned_alloc);
    return count(MEMORY) ? no_memory() : next_aligned_alloc(alignment, size);
}

int posix_memalign(void **place, size_t alignment, size_t size)
{
    LOOK_UP(posix_memalign);
    return count(MEMORY) ? ENOMEM : next_posix_memalign(place, alignment, size);
}

int open(const char *path, int flags, ...)
{
    va_list more;
    mode_t mode;
    int fault;
    va_start(more, flags);
    mode = flags & O_CREAT ? va_arg(more, mode_t) : 0;
    va_end(more);
    LOOK_UP(open);
    fault = count(OPEN);
    return fault ? (int)fails(fault) : next_open(path, flags, mode);
}

ssize_t read(int descriptor, void *bytes, size_t size)
{
    int fault;
    LOOK_UP(read);
    fault = count(READ);
    if (fault > 0)
        return fails(fault);
    if (fault == NONE)
        return 0;
    return next_read(descriptor, bytes, fault == ONE && size > 1 ? 1 : size);
}

ssize_t write(int descriptor, const void *bytes, size_t size)
{
    int fault = 0;
    LOOK_UP(write);
    if (descriptor == 1 || descriptor == 2)
        fault = count(descriptor == 1 ? OUT : NOTES);
    if (fault > 0)
        return fails(fault);
    if (fault == NONE)
        return 0;
    return next_write(descriptor, bytes, fault == ONE && size > 1 ? 1 : size);
}

int pthread_create(pthread_t *thread, const pthread_attr_t *attributes, void *(*start)(void *), void *argument)
{
    int fault;
    LOOK_UP(pthread_create);
    fault = count(THREAD);
    return fault ? fault : next_pthread_create(thread, attributes, start, argument);
}

/* Names under which the same functions are called too. */
int open64(const char *, int, ...) __attribute__((alias("open")));
ssize_t __write(int, const void *, size_t) __attribute__((alias("write")));
ssize_t __read(int, void *, size_t) __attribute__((alias("read")));
