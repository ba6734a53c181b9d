/* Makes calls of the C library fail in the program that it is loaded into (LD_PRELOAD), as disks, pipes and signals may.
 *
 * CALL=NAME   which call: open, statx, read, write, close, rename or unlink
 * FROM=N      the first such call that is met, from 1
 * TIMES=K     how many are met from there on; 0 is all
 * HOW=WORD    what they meet:
 *   a number  that error, and nothing is done (but a file is closed all the same)
 *   short     one byte is moved, where more were asked for
 *   end       nothing is moved, and 0 is answered
 *   cut       the file is first cut to half of its length
 *   grow      where the file is at its end, zeros are read, as if it grew as fast as it is read
 * COUNT=FILE  8 bytes, which get how many such calls there were, also where the program is killed */
#define _GNU_SOURCE
#include <dlfcn.h>
#include <errno.h>
#include <fcntl.h>
#include <stdarg.h>
#include <stdio.h>
#include <stdlib.h>
#include <string.h>
#include <sys/mman.h>
#include <sys/stat.h>
#include <unistd.h>

static long uncounted;
static long *count = &uncounted;
static const char *call = "", *how = "";
static long from, times;

static long number_in(const char *name)
{
    const char *text = getenv(name);
    return text ? atol(text) : 0;
}

__attribute__((constructor)) static void begin(void)
{
    const char *name = getenv("COUNT");
    int (*real_open)(const char *, int, ...) = (int (*)(const char *, int, ...))dlsym(RTLD_NEXT, "open");
    int (*real_close)(int) = (int (*)(int))dlsym(RTLD_NEXT, "close");
    int file = name ? real_open(name, O_RDWR | O_CLOEXEC) : -1;
    void *mapped = mmap(NULL, sizeof uncounted, PROT_READ | PROT_WRITE, MAP_SHARED, file, 0);
    if (mapped == MAP_FAILED || !getenv("CALL") || !getenv("HOW"))
        _exit(125);
    real_close(file);
    from = number_in("FROM");
    times = number_in("TIMES");
    how = getenv("HOW");
    count = mapped;
    call = getenv("CALL");
}

/* Whether this call is one of those that are met. */
static int is_met(const char *name)
{
    if (strcmp(name, call))
        return 0;
    long number = __atomic_add_fetch(count, 1, __ATOMIC_SEQ_CST);
    return number >= from && (times == 0 || number < from + times);
}

/* Whether such a call fails, and errno says why. */
static int fails(const char *name)
{
    if (!is_met(name) || !atoi(how))
        return 0;
    errno = atoi(how);
    return 1;
}

static void cut(int file)
{
    char path[32];
    struct stat found;
    snprintf(path, sizeof path, "/proc/self/fd/%d", file);
    if (fstat(file, &found) || truncate(path, found.st_size / 2))
        _exit(125);
}

int open(const char *path, int flags, ...)
{
    int (*real)(const char *, int, ...) = (int (*)(const char *, int, ...))dlsym(RTLD_NEXT, "open");
    va_list rest;
    va_start(rest, flags);
    mode_t mode = va_arg(rest, mode_t);
    va_end(rest);
    return fails("open") ? -1 : real(path, flags, mode);
}

int statx(int folder, const char *path, int flags, unsigned mask, struct statx *found)
{
    int (*real)(int, const char *, int, unsigned, struct statx *) =
        (int (*)(int, const char *, int, unsigned, struct statx *))dlsym(RTLD_NEXT, "statx");
    return fails("statx") ? -1 : real(folder, path, flags, mask, found);
}

ssize_t read(int file, void *into, size_t size)
{
    ssize_t (*real)(int, void *, size_t) = (ssize_t (*)(int, void *, size_t))dlsym(RTLD_NEXT, "read");
    if (!is_met("read"))
        return real(file, into, size);
    if (atoi(how)) {
        errno = atoi(how);
        return -1;
    }
    if (!strcmp(how, "end"))
        return 0;
    if (!strcmp(how, "cut"))
        cut(file);
    ssize_t moved = real(file, into, !strcmp(how, "short") && size > 1 ? 1 : size);
    if (moved || strcmp(how, "grow"))
        return moved;
    memset(into, 0, size);
    return size;
}

ssize_t write(int file, const void *bytes, size_t size)
{
    ssize_t (*real)(int, const void *, size_t) = (ssize_t (*)(int, const void *, size_t))dlsym(RTLD_NEXT, "write");
    if (!is_met("write"))
        return real(file, bytes, size);
    if (atoi(how)) {
        errno = atoi(how);
        return -1;
    }
    if (!strcmp(how, "end"))
        return 0;
    return real(file, bytes, !strcmp(how, "short") && size > 1 ? 1 : size);
}

int close(int file)
{
    int (*real)(int) = (int (*)(int))dlsym(RTLD_NEXT, "close");
    int is_refused = fails("close");
    int error = errno, answer = real(file);
    if (is_refused)
        errno = error;
    return is_refused ? -1 : answer;
}

int rename(const char *old, const char *new)
{
    int (*real)(const char *, const char *) = (int (*)(const char *, const char *))dlsym(RTLD_NEXT, "rename");
    return fails("rename") ? -1 : real(old, new);
}

int unlink(const char *path)
{
    int (*real)(const char *) = (int (*)(const char *))dlsym(RTLD_NEXT, "unlink");
    return fails("unlink") ? -1 : real(path);
}
