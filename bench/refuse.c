/* Refuses calls of a program that is run with this library preloaded, and counts them. Not part of the program.

       REFUSE=one:3 REFUSE_COUNTS=FILE LD_PRELOAD=refuse.so npnp ..

   refuses the third allocation; `all:3` the third and all that follow; `system:3` the third of the calls of the system that open,
   describe, read, write, empty, sync or close a file, with the error EIO. FILE gets two numbers, how many allocations and how
   many calls of the system there were, and the name of the first that was refused. */
#define _GNU_SOURCE
#include <errno.h>
#include <fcntl.h>
#include <limits.h>
#include <stdarg.h>
#include <stdio.h>
#include <stdlib.h>
#include <string.h>
#include <sys/stat.h>
#include <sys/syscall.h>
#include <unistd.h>

void *__libc_malloc(size_t size);
void *__libc_realloc(void *old, size_t size);

enum kind { MEMORY, SYSTEM };

static long count[2], first[2], last[2];
static const char *refused = "none";

static int refuses(enum kind kind, const char *name)
{
    long number = ++count[kind];
    if (number < first[kind] || number > last[kind]) return 0;
    if (number == first[kind]) refused = name;
    errno = kind == MEMORY ? ENOMEM : EIO;
    return 1;
}

__attribute__((constructor)) static void begin(void)
{
    const char *asked = getenv("REFUSE");
    const char *colon = asked ? strchr(asked, ':') : NULL;
    count[MEMORY] = count[SYSTEM] = 0;
    if (!colon) return;
    enum kind kind = asked[0] == 's' ? SYSTEM : MEMORY;
    first[kind] = atol(colon + 1);
    last[kind] = asked[0] == 'a' ? LONG_MAX : first[kind];
}

__attribute__((destructor)) static void end(void)
{
    char line[96];
    const char *path = getenv("REFUSE_COUNTS");
    int length = snprintf(line, sizeof line, "%ld %ld %s\n", count[MEMORY], count[SYSTEM], refused);
    if (!path) return;
    long file = syscall(SYS_openat, AT_FDCWD, path, O_WRONLY | O_CREAT | O_TRUNC, 0644);
    if (file < 0 || syscall(SYS_write, file, line, length) != length) _exit(125);
}

void *malloc(size_t size) { return refuses(MEMORY, "malloc") ? NULL : __libc_malloc(size); }

void *realloc(void *old, size_t size) { return refuses(MEMORY, "realloc") ? NULL : __libc_realloc(old, size); }

int open(const char *path, int flags, ...)
{
    va_list more;
    va_start(more, flags);
    int mode = va_arg(more, int);
    va_end(more);
    return refuses(SYSTEM, "open") ? -1 : syscall(SYS_openat, AT_FDCWD, path, flags, mode);
}

int statx(int folder, const char *path, int flags, unsigned mask, struct statx *found)
{
    return refuses(SYSTEM, "statx") ? -1 : syscall(SYS_statx, folder, path, flags, mask, found);
}

ssize_t read(int file, void *to, size_t size) { return refuses(SYSTEM, "read") ? -1 : syscall(SYS_read, file, to, size); }

ssize_t write(int file, const void *from, size_t size)
{
    return refuses(SYSTEM, "write") ? -1 : syscall(SYS_write, file, from, size);
}

ssize_t __write(int file, const void *from, size_t size) { return write(file, from, size); }

int ftruncate(int file, off_t size) { return refuses(SYSTEM, "ftruncate") ? -1 : syscall(SYS_ftruncate, file, size); }

int fsync(int file) { return refuses(SYSTEM, "fsync") ? -1 : syscall(SYS_fsync, file); }

int close(int file)
{
    int ended = refuses(SYSTEM, "close");
    long status = syscall(SYS_close, file);
    return ended ? -1 : status;
}
