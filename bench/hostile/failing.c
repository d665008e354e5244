/* Makes one call of a program fail, or each from one on. It is preloaded, and these words of the environment say how:
     FAILING_CALL   open, read, write, close, fsync or memory
     FAILING_AT     the number of the call among those of its name, counted from 1
     FAILING_ON     there, and each later one fails too
     FAILING_HOW    the number of an error; `short`: one byte alone is read or written; `none`: none is, without an error
     FAILING_LIST   a file that gets a line for each call, and behind them how many asked for memory
   The calls themselves are made by the kernel's numbers, so that nothing has to be looked up. */
#define _GNU_SOURCE
#include <errno.h>
#include <fcntl.h>
#include <stdarg.h>
#include <stdio.h>
#include <stdlib.h>
#include <string.h>
#include <sys/syscall.h>
#include <unistd.h>

enum { OPEN, READ, WRITE, CLOSE, SYNC, MEMORY, CALLS };
enum { NOT, BY_ERROR, BY_SHORT, BY_NONE };

static const char *const names[CALLS] = {"open", "read", "write", "close", "fsync", "memory"};
static long counts[CALLS], at;
static int chosen = -1, goes_on, how, failing_errno, list = -1;

extern void *__libc_malloc(size_t);
extern void *__libc_realloc(void *, size_t);
extern void *__libc_calloc(size_t, size_t);

__attribute__((constructor)) static void begin(void) {
    const char *call = getenv("FAILING_CALL"), *way = getenv("FAILING_HOW"), *path = getenv("FAILING_LIST");
    for (int i = 0; call && i < CALLS; i++)
        if (!strcmp(call, names[i])) chosen = i;
    at = getenv("FAILING_AT") ? atol(getenv("FAILING_AT")) : 0;
    goes_on = getenv("FAILING_ON") != NULL;
    how = !way ? NOT : !strcmp(way, "short") ? BY_SHORT : !strcmp(way, "none") ? BY_NONE : BY_ERROR;
    failing_errno = how == BY_ERROR ? atoi(way) : 0;
    if (path) {
        int handle = syscall(SYS_openat, AT_FDCWD, path, O_WRONLY | O_CREAT | O_TRUNC, 0644);
        list = syscall(SYS_fcntl, handle, F_DUPFD, 900);
        syscall(SYS_close, handle);
    }
    /* what was asked for before the program began isn't the program's */
    counts[MEMORY] = 0;
}

static void tell(const char *form, ...) {
    char line[4200];
    va_list values;
    if (list < 0) return;
    va_start(values, form);
    int length = vsnprintf(line, sizeof line, form, values);
    va_end(values);
    syscall(SYS_write, list, line, length < (int)sizeof line ? length : (int)sizeof line - 1);
}

__attribute__((destructor)) static void end(void) { tell("memory %ld\n", counts[MEMORY]); }

/* how this call fails */
static int fails(int call) {
    long number = ++counts[call];
    if (call != chosen || at == 0 || number < at || (number > at && !goes_on)) return NOT;
    if (how == BY_ERROR) errno = failing_errno;
    return how;
}

int open(const char *path, int flags, ...) {
    va_list values;
    va_start(values, flags);
    int mode = flags & O_CREAT ? va_arg(values, int) : 0;
    va_end(values);
    tell("open %d %s\n", flags & O_ACCMODE, path);
    return fails(OPEN) ? -1 : syscall(SYS_openat, AT_FDCWD, path, flags, mode);
}

int open64(const char *path, int flags, ...) {
    va_list values;
    va_start(values, flags);
    int mode = flags & O_CREAT ? va_arg(values, int) : 0;
    va_end(values);
    return open(path, flags, mode);
}

ssize_t read(int handle, void *to, size_t length) {
    tell("read %d\n", handle);
    int way = fails(READ);
    if (way == BY_ERROR) return -1;
    if (way == BY_NONE) return 0;
    return syscall(SYS_read, handle, to, way == BY_SHORT && length ? 1 : length);
}

ssize_t write(int handle, const void *from, size_t length) {
    tell("write %d\n", handle);
    int way = fails(WRITE);
    if (way == BY_ERROR) return -1;
    if (way == BY_NONE) return 0;
    return syscall(SYS_write, handle, from, way == BY_SHORT && length ? 1 : length);
}

int close(int handle) {
    tell("close %d\n", handle);
    int way = fails(CLOSE), error = errno;
    int closed = syscall(SYS_close, handle);
    if (way) errno = error;
    return way ? -1 : closed;
}

int fsync(int handle) {
    tell("fsync %d\n", handle);
    return fails(SYNC) ? -1 : syscall(SYS_fsync, handle);
}

int fdatasync(int handle) {
    tell("fsync %d\n", handle);
    return fails(SYNC) ? -1 : syscall(SYS_fdatasync, handle);
}

static int refused(void) {
    int way = fails(MEMORY);
    if (way) errno = ENOMEM;
    return way;
}

void *malloc(size_t size) { return refused() ? NULL : __libc_malloc(size); }
void *calloc(size_t number, size_t size) { return refused() ? NULL : __libc_calloc(number, size); }
void *realloc(void *there, size_t size) { return refused() ? NULL : __libc_realloc(there, size); }
