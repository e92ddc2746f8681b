/* Preloaded before the program: refuses its n-th allocation, or makes the n-th of its calls of the outside fail or do less.

   REFUSE_ALLOCATION=N  the N-th call of malloc, calloc or realloc answers NULL
   REFUSE_CALL=N        the N-th call of open, read, write or close fails with EIO
   REFUSE_SHORT=N       the N-th read or write of more than one byte moves one byte
   REFUSE_LOG=FILE      each of these calls has a line in FILE: what it is, and its file or stream */
#define _GNU_SOURCE
#include <errno.h>
#include <fcntl.h>
#include <stdarg.h>
#include <stdio.h>
#include <stdlib.h>
#include <string.h>
#include <sys/syscall.h>
#include <unistd.h>

extern void *__libc_malloc(size_t);
extern void *__libc_calloc(size_t, size_t);
extern void *__libc_realloc(void *, size_t);

enum { FILES = 64, ROOM = 80 };
static long refused_allocation, refused_call, short_call, allocations, calls, long_calls;
static int log_file = -1;
static char names[FILES][ROOM];

static long number(const char *name) {
    const char *value = getenv(name);
    return value ? atol(value) : 0;
}

__attribute__((constructor)) static void begin(void) {
    const char *log = getenv("REFUSE_LOG");
    if (log) log_file = syscall(SYS_open, log, O_WRONLY | O_CREAT | O_APPEND | O_CLOEXEC, 0666);
    strcpy(names[0], "script");
    strcpy(names[1], "output");
    strcpy(names[2], "error");
    refused_allocation = number("REFUSE_ALLOCATION");
    refused_call = number("REFUSE_CALL");
    short_call = number("REFUSE_SHORT");
}

static void note(const char *what, const char *name) {
    char line[ROOM + 32];
    if (log_file < 0) return;
    int length = snprintf(line, sizeof line, "%s %s\n", what, name);
    syscall(SYS_write, log_file, line, length);
}

static const char *name_of(int file) {
    return file >= 0 && file < FILES ? names[file] : "?";
}

/* Whether this call is to fail. */
static int fails(const char *what, const char *name) {
    note(what, name);
    if (++calls != refused_call) return 0;
    errno = EIO;
    return 1;
}

static size_t shortened(size_t size) {
    return size > 1 && ++long_calls == short_call ? 1 : size;
}

static int is_refused(void) {
    note("allocation", "");
    if (++allocations != refused_allocation) return 0;
    errno = ENOMEM;
    return 1;
}

void *malloc(size_t size) {
    return is_refused() ? NULL : __libc_malloc(size);
}

void *calloc(size_t count, size_t size) {
    return is_refused() ? NULL : __libc_calloc(count, size);
}

void *realloc(void *old, size_t size) {
    return is_refused() ? NULL : __libc_realloc(old, size);
}

int open(const char *name, int flags, ...) {
    va_list more;
    va_start(more, flags);
    int mode = flags & O_CREAT ? va_arg(more, int) : 0;
    va_end(more);
    if (fails(flags & (O_WRONLY | O_RDWR) ? "create" : "open", name)) return -1;
    int file = syscall(SYS_openat, AT_FDCWD, name, flags, mode);
    if (file >= 0 && file < FILES) snprintf(names[file], ROOM, "%s", name);
    return file;
}

ssize_t read(int file, void *bytes, size_t size) {
    if (fails("read", name_of(file))) return -1;
    return syscall(SYS_read, file, bytes, shortened(size));
}

ssize_t write(int file, const void *bytes, size_t size) {
    if (fails("write", name_of(file))) return -1;
    return syscall(SYS_write, file, bytes, shortened(size));
}

/* The file is closed all the same, as Linux does. */
int close(int file) {
    int is_failed = fails("close", name_of(file));
    int answer = syscall(SYS_close, file);
    return is_failed ? (errno = EIO, -1) : answer;
}
