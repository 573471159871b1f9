/* Preloaded into a program, it refuses calls of one kind, and counts them.
 *   REFUSED   grow: memory; open: a file (EACCES, at full-open ENOMEM); read, write: bytes (EIO, at block-read EAGAIN);
 *             or it hinders bytes: interrupt-read, interrupt-write (EINTR), short-read, short-write (one is moved)
 *   FROM, TO  the first and the last call that is refused; the first of all is 1
 *   MARKED    where it is given, only calls count that come behind a mark: call: between that line on standard error and the
 *             next write there; open: behind the first file that is opened
 *   COUNT     the file that gets how many calls there were, in decimal digits */
#define _GNU_SOURCE
#include <errno.h>
#include <fcntl.h>
#include <stdio.h>
#include <stdlib.h>
#include <string.h>
#include <sys/syscall.h>
#include <unistd.h>

void *__libc_malloc(size_t size);
void *__libc_realloc(void *old, size_t size);

static const char *refused = "", *mark;
static long calls, from, to;
static int is_behind_mark;

__attribute__((constructor)) static void begin(void) {
    from = atol(getenv("FROM"));
    to = atol(getenv("TO"));
    refused = getenv("REFUSED");
    mark = getenv("MARKED");
}

static int is_marked_by(const char *name) { return mark != NULL && strcmp(mark, name) == 0; }

static int refuses(const char *kind, int error) {
    if ((mark != NULL && !is_behind_mark) || strcmp(refused, kind) != 0 || ++calls < from || calls > to) return 0;
    errno = error;
    return 1;
}

void *malloc(size_t size) { return refuses("grow", ENOMEM) ? NULL : __libc_malloc(size); }

void *realloc(void *old, size_t size) { return refuses("grow", ENOMEM) ? NULL : __libc_realloc(old, size); }

int open(const char *path, int flags, ...) {
    if (is_marked_by("open")) is_behind_mark = 1;
    return refuses("open", EACCES) || refuses("full-open", ENOMEM) ? -1 : (int)syscall(SYS_openat, AT_FDCWD, path, flags, 0666);
}

ssize_t read(int file, void *bytes, size_t size) {
    if (refuses("read", EIO) || refuses("block-read", EAGAIN) || refuses("interrupt-read", EINTR)) return -1;
    return syscall(SYS_read, file, bytes, size && refuses("short-read", 0) ? 1 : size);
}

static int is_line(const char *line, const void *bytes, size_t size) {
    return size == strlen(line) && memcmp(bytes, line, size) == 0;
}

ssize_t write(int file, const void *bytes, size_t size) {
    if (file == STDERR_FILENO && is_marked_by("call")) is_behind_mark = is_line("call\n", bytes, size);
    if (refuses("write", EIO) || refuses("interrupt-write", EINTR)) return -1;
    return syscall(SYS_write, file, bytes, size && refuses("short-write", 0) ? 1 : size);
}

ssize_t __write(int file, const void *bytes, size_t size) { return write(file, bytes, size); }

__attribute__((destructor)) static void end(void) {
    char digits[24];
    int file = (int)syscall(SYS_openat, AT_FDCWD, getenv("COUNT"), O_WRONLY | O_CREAT | O_TRUNC, 0666);
    if (file >= 0) syscall(SYS_write, file, digits, snprintf(digits, sizeof digits, "%ld", calls));
}
