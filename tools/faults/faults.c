/* Makes calls of a program to the C library fail. It is loaded before that library (LD_PRELOAD),
 * and at work from the beginning of the program's main on.
 *
 * The variable FAULTS says what is to fail, in seven words:
 *
 *     KIND NUMBER REST ERROR PIECE SECONDS REPORT
 *
 * KIND is memory, open, read or write, and NUMBER says which call of the kind fails, from 1; 0 for
 * none. Where REST is 1, each later call of the kind fails too. ERROR is the errno of the calls of
 * open, read and write that fail; a write that fails with 0 takes nothing. PIECE is the most bytes
 * that a read or a write moves, 0 for any number. After SECONDS the program is ended. REPORT is a
 * file, as large as a report at least, into which what happened is written as it happens.
 *
 * The program sees neither FAULTS nor LD_PRELOAD in its environment. */
#define _GNU_SOURCE
#include <dlfcn.h>
#include <errno.h>
#include <fcntl.h>
#include <stdarg.h>
#include <stdint.h>
#include <stdio.h>
#include <stdlib.h>
#include <string.h>
#include <sys/mman.h>
#include <sys/stat.h>
#include <sys/syscall.h>
#include <sys/uio.h>
#include <unistd.h>

enum kind { MEMORY, OPEN, READ, WRITE, KINDS };

static const char *const NAMES[KINDS] = {"memory", "open", "read", "write"};

#define NAME_LEN 1024

/* What happened. The script beside this file reads these fields by their order. */
struct report {
    uint64_t calls[KINDS]; /* calls of each kind */
    uint64_t failed;       /* calls that were made to fail */
    int64_t descriptor;    /* of the first of them; -1 for memory and open */
    uint64_t taken;        /* bytes that were read from standard input */
    uint64_t written;      /* bytes that were written to standard output */
    char name[NAME_LEN];   /* the file of the first read or open that failed */
    uint64_t asked;        /* reads of standard input of which a row tells */
    struct {               /* of each of these: what was taken and written before it */
        uint64_t taken, written;
    } rows[];
};

#define FILES 64

static struct report *report;
static size_t rows;
static int at_work;
static enum kind chosen = KINDS;
static unsigned long number, rest, piece, seconds;
static int error;
static char names[FILES][NAME_LEN];

/* Counts a call of this kind, and answers whether it is to fail. */
static int fails(enum kind kind, int descriptor, const char *name) {
    if (!at_work)
        return 0;
    uint64_t count = ++report->calls[kind];
    if (kind != chosen || number == 0 || count < number || (count > number && !rest))
        return 0;
    if (report->failed++ == 0) {
        report->descriptor = descriptor;
        snprintf(report->name, NAME_LEN, "%s", name);
    }
    return 1;
}

static size_t at_most(size_t length) {
    return at_work && piece != 0 && length > piece ? piece : length;
}

/* Memory. */

void *__libc_malloc(size_t);
void *__libc_calloc(size_t, size_t);
void *__libc_realloc(void *, size_t);
void *__libc_memalign(size_t, size_t);

static int is_refused(void) {
    if (!fails(MEMORY, -1, ""))
        return 0;
    errno = ENOMEM;
    return 1;
}

void *malloc(size_t length) { return is_refused() ? NULL : __libc_malloc(length); }

void *calloc(size_t count, size_t length) {
    return is_refused() ? NULL : __libc_calloc(count, length);
}

void *realloc(void *old, size_t length) {
    return is_refused() ? NULL : __libc_realloc(old, length);
}

void *reallocarray(void *old, size_t count, size_t length) {
    size_t bytes;
    if (__builtin_mul_overflow(count, length, &bytes)) {
        errno = ENOMEM;
        return NULL;
    }
    return realloc(old, bytes);
}

void *memalign(size_t alignment, size_t length) {
    return is_refused() ? NULL : __libc_memalign(alignment, length);
}

void *aligned_alloc(size_t alignment, size_t length) { return memalign(alignment, length); }

int posix_memalign(void **made, size_t alignment, size_t length) {
    if (is_refused())
        return ENOMEM;
    void *found = __libc_memalign(alignment, length);
    if (found == NULL)
        return ENOMEM;
    *made = found;
    return 0;
}

/* Files. */

static int open_at(int folder, const char *path, int flags, mode_t mode) {
    if (fails(OPEN, -1, path)) {
        errno = error;
        return -1;
    }
    int descriptor = (int)syscall(SYS_openat, folder, path, flags, mode);
    if (descriptor >= 0 && descriptor < FILES)
        snprintf(names[descriptor], NAME_LEN, "%s", path);
    return descriptor;
}

static mode_t mode_of(int flags, va_list *words) {
    return flags & (O_CREAT | O_TMPFILE) ? va_arg(*words, mode_t) : 0;
}

int open(const char *path, int flags, ...) {
    va_list words;
    va_start(words, flags);
    mode_t mode = mode_of(flags, &words);
    va_end(words);
    return open_at(AT_FDCWD, path, flags, mode);
}

int open64(const char *path, int flags, ...) __attribute__((alias("open")));

int openat(int folder, const char *path, int flags, ...) {
    va_list words;
    va_start(words, flags);
    mode_t mode = mode_of(flags, &words);
    va_end(words);
    return open_at(folder, path, flags, mode);
}

ssize_t read(int descriptor, void *buffer, size_t length) {
    if (at_work && descriptor == 0 && report->asked < rows) {
        report->rows[report->asked].taken = report->taken;
        report->rows[report->asked++].written = report->written;
    }
    const char *name = descriptor >= 0 && descriptor < FILES ? names[descriptor] : "";
    if (fails(READ, descriptor, name)) {
        errno = error;
        return -1;
    }
    ssize_t count = syscall(SYS_read, descriptor, buffer, at_most(length));
    if (at_work && descriptor == 0 && count > 0)
        report->taken += (uint64_t)count;
    return count;
}

static ssize_t counted(int descriptor, ssize_t count) {
    if (at_work && descriptor == 1 && count > 0)
        report->written += (uint64_t)count;
    return count;
}

static int write_fails(int descriptor) {
    if (!fails(WRITE, descriptor, ""))
        return 0;
    errno = error;
    return 1;
}

ssize_t write(int descriptor, const void *bytes, size_t length) {
    if (write_fails(descriptor))
        return error == 0 ? 0 : -1;
    return counted(descriptor, syscall(SYS_write, descriptor, bytes, at_most(length)));
}

ssize_t __write(int descriptor, const void *bytes, size_t length) __attribute__((alias("write")));

ssize_t writev(int descriptor, const struct iovec *parts, int count) {
    if (write_fails(descriptor))
        return error == 0 ? 0 : -1;
    if (!at_work || piece == 0)
        return counted(descriptor, syscall(SYS_writev, descriptor, parts, count));
    while (count > 1 && parts->iov_len == 0) {
        parts++;
        count--;
    }
    size_t length = count > 0 ? at_most(parts->iov_len) : 0;
    const void *bytes = count > 0 ? parts->iov_base : "";
    return counted(descriptor, syscall(SYS_write, descriptor, bytes, length));
}

/* The settings, and the beginning of main. */

static void stop(const char *why) {
    dprintf(2, "faults: %s\n", why);
    _exit(99);
}

static void take_report(const char *path) {
    int descriptor = (int)syscall(SYS_openat, AT_FDCWD, path, O_RDWR | O_CLOEXEC, 0);
    struct stat found;
    if (descriptor < 0 || fstat(descriptor, &found) != 0)
        stop("the report can't be opened");
    size_t length = (size_t)found.st_size;
    if (length < sizeof(struct report))
        stop("the report is too short");
    report = mmap(NULL, length, PROT_READ | PROT_WRITE, MAP_SHARED, descriptor, 0);
    if (report == MAP_FAILED)
        stop("the report can't be mapped");
    rows = (length - sizeof(struct report)) / sizeof(report->rows[0]);
    close(descriptor);
}

static void take_settings(void) {
    const char *said = getenv("FAULTS");
    char kind[16], path[4096];
    if (said == NULL)
        stop("FAULTS isn't set");
    if (sscanf(said, "%15s %lu %lu %d %lu %lu %4095[^\n]", kind, &number, &rest, &error, &piece,
               &seconds, path) != 7)
        stop("FAULTS hasn't seven words");
    for (enum kind it = MEMORY; it < KINDS; it++)
        if (strcmp(kind, NAMES[it]) == 0)
            chosen = it;
    take_report(path);
    unsetenv("FAULTS");
    unsetenv("LD_PRELOAD");
}

typedef int main_of(int, char **, char **);

static main_of *program;

static int main_at_work(int count, char **words, char **environment) {
    take_settings();
    alarm((unsigned)seconds);
    at_work = 1;
    int status = program(count, words, environment);
    at_work = 0;
    return status;
}

typedef int start_of(main_of *, int, char **, void (*)(void), void (*)(void), void (*)(void),
                     void *);

int __libc_start_main(main_of *started, int count, char **words, void (*begin)(void),
                      void (*end)(void), void (*unload)(void), void *stack) {
    start_of *start = (start_of *)dlsym(RTLD_NEXT, "__libc_start_main");
    program = started;
    return start(main_at_work, count, words, begin, end, unload, stack);
}
