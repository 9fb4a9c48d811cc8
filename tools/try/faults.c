/* Makes calls of a program fail. It is loaded before the C library by faults.py and refuse-memory.sh, and linked into
   nothing.

   FAULTS has up to eight faults, with blanks between them: CALL:N:LATER:ERROR:LENGTH. CALL is memory (an allocation),
   open, read, write or close. The Nth such call from the start of main fails with the error of that number, and all
   later ones too if LATER is 1. A realloc of a block that has the room isn't counted, and never fails. With a LENGTH
   that isn't negative, a read or write is not failed but moves at most so many bytes.

   FAULTS_TOLD is the number of an open descriptor. It gets a line for each open, read, write and close, with the call,
   its first argument and its result, and at the end a line with the number of calls that a fault changed. If there is
   no FAULTS_TOLD, standard error gets this last line if none was changed. */
#define _GNU_SOURCE
#include <errno.h>
#include <fcntl.h>
#include <malloc.h>
#include <stdarg.h>
#include <stdio.h>
#include <stdlib.h>
#include <string.h>
#include <sys/syscall.h>
#include <unistd.h>

extern void *__libc_malloc(size_t);
extern void *__libc_calloc(size_t, size_t);
extern void *__libc_realloc(void *, size_t);
extern void *__libc_memalign(size_t, size_t);

enum call { MEMORY, OPEN, READ, WRITE, CLOSE, CALLS };
static const char *const NAMES[CALLS] = {"memory", "open", "read", "write", "close"};
enum { MOST = 8 };

struct fault {
    char call[8];
    long at;
    int is_later, error, length;
};

static struct fault faults[MOST];
static int count, is_ready, told = -1;
static long seen[CALLS], changed;

__attribute__((constructor)) static void begin(void) {
    const char *number = getenv("FAULTS_TOLD");
    told = number ? atoi(number) : -1;
    for (const char *text = getenv("FAULTS"); text && count < MOST; text = strchr(text, ' ')) {
        struct fault *next = &faults[count];
        text += *text == ' ';
        count += sscanf(text, "%7[a-z]:%ld:%d:%d:%d", next->call, &next->at, &next->is_later, &next->error,
                        &next->length) == 5;
    }
    is_ready = 1;
}

/* Writes to the descriptor without a call of the C library that could fail. */
static void tell(const char *text, size_t length) {
    if (told >= 0) {
        syscall(SYS_write, told, text, length);
    }
}

/* Tells a call, and gives its result back, with the error that it left. */
static long done(enum call call, const char *name, int number, long result) {
    char line[4200];
    int error = errno, length;
    if (told >= 0) {
        length = name ? snprintf(line, sizeof line, "%s %s %ld\n", NAMES[call], name, result)
                      : snprintf(line, sizeof line, "%s %d %ld\n", NAMES[call], number, result);
        tell(line, (size_t)length < sizeof line ? (size_t)length : sizeof line);
    }
    errno = error;
    return result;
}

/* The fault of this call, if it has one. */
static const struct fault *fault_of(enum call call) {
    if (is_ready) {
        long number = ++seen[call];
        for (int at = 0; at < count; at++) {
            const struct fault *one = &faults[at];
            if (!strcmp(one->call, NAMES[call]) && (number == one->at || (one->is_later && number > one->at))) {
                changed++;
                return one;
            }
        }
    }
    return NULL;
}

/* Whether this allocation is refused. */
static int is_refused(void) {
    const struct fault *fault = fault_of(MEMORY);
    if (fault) {
        errno = fault->error;
    }
    return fault != NULL;
}

void *malloc(size_t size) {
    return is_refused() ? NULL : __libc_malloc(size);
}

void *calloc(size_t number, size_t size) {
    return is_refused() ? NULL : __libc_calloc(number, size);
}

void *realloc(void *block, size_t size) {
    /* A block that has the room asks for none, and gives some back as far as it can. */
    int has_room = block && size <= malloc_usable_size(block);
    return !has_room && is_refused() ? NULL : __libc_realloc(block, size);
}

void *aligned_alloc(size_t alignment, size_t size) {
    return is_refused() ? NULL : __libc_memalign(alignment, size);
}

int posix_memalign(void **block, size_t alignment, size_t size) {
    void *found = is_refused() ? NULL : __libc_memalign(alignment, size);
    if (!found) {
        return ENOMEM;
    }
    *block = found;
    return 0;
}

/* Opens a file as the system does, unless a fault is there. */
static int opened(int folder, const char *name, int flags, mode_t mode) {
    const struct fault *fault = fault_of(OPEN);
    if (fault) {
        errno = fault->error;
    }
    return (int)done(OPEN, name, 0, fault ? -1 : syscall(SYS_openat, folder, name, flags, mode));
}

#define MODE(flags)                                      \
    mode_t mode = 0;                                     \
    if ((flags) & (O_CREAT | O_TMPFILE)) {               \
        va_list rest;                                    \
        va_start(rest, flags);                           \
        mode = va_arg(rest, mode_t);                     \
        va_end(rest);                                    \
    }

int open(const char *name, int flags, ...) {
    MODE(flags)
    return opened(AT_FDCWD, name, flags, mode);
}

int openat(int folder, const char *name, int flags, ...) {
    MODE(flags)
    return opened(folder, name, flags, mode);
}

int open64(const char *, int, ...) __attribute__((alias("open")));
int openat64(int, const char *, int, ...) __attribute__((alias("openat")));

/* Whether a read or write fails. If not, the size becomes what it may move. */
static int fails(enum call call, size_t *size) {
    const struct fault *fault = fault_of(call);
    if (fault && fault->length < 0) {
        errno = fault->error;
        return 1;
    }
    if (fault && *size > (size_t)fault->length) {
        *size = (size_t)fault->length;
    }
    return 0;
}

ssize_t read(int file, void *bytes, size_t size) {
    return done(READ, NULL, file, fails(READ, &size) ? -1 : syscall(SYS_read, file, bytes, size));
}

ssize_t write(int file, const void *bytes, size_t size) {
    return done(WRITE, NULL, file, fails(WRITE, &size) ? -1 : syscall(SYS_write, file, bytes, size));
}

/* A close that fails has closed the file all the same. */
int close(int file) {
    const struct fault *fault = fault_of(CLOSE);
    long result = syscall(SYS_close, file);
    if (fault) {
        errno = fault->error;
        result = -1;
    }
    return (int)done(CLOSE, NULL, file, result);
}

__attribute__((destructor)) static void end(void) {
    char line[32];
    if (told < 0 && !changed) {
        told = 2;
    }
    tell(line, (size_t)snprintf(line, sizeof line, "changed %ld\n", changed));
}
