/* Refuses a request for memory, or the start of a thread, in the program that it is loaded into (LD_PRELOAD).
 *
 * REFUSE=N     the Nth request for memory, from 1, in whichever thread it comes
 * UNSTARTED=N  the Nth start of a thread, from 1; with LATER=1 every later one too
 * COUNT=FILE   16 bytes, which get how many requests and how many starts there were, refused ones too
 *
 * The counts lie in the file itself, which is mapped: so they are whole however the program ends. Each request takes its number
 * in one step that no other thread comes between, so just one has the number N. What the C library asked for before this is
 * initialized is not counted. */
#define _GNU_SOURCE
#include <dlfcn.h>
#include <errno.h>
#include <fcntl.h>
#include <pthread.h>
#include <stdlib.h>
#include <sys/mman.h>
#include <unistd.h>

/* The C library's own, by names that need no search, which might itself ask for memory. */
extern void *__libc_malloc(size_t);
extern void *__libc_calloc(size_t, size_t);
extern void *__libc_realloc(void *, size_t);

typedef int starter(pthread_t *, const pthread_attr_t *, void *(*)(void *), void *);

static long uncounted[2];
static long *counts = uncounted;
static long refused, unstarted, later;
static int is_ready;
static starter *real_start;

static long number_in(const char *name)
{
    const char *text = getenv(name);
    return text ? atol(text) : 0;
}

__attribute__((constructor)) static void begin(void)
{
    const char *name = getenv("COUNT");
    int file = name ? open(name, O_RDWR | O_CLOEXEC) : -1;
    void *mapped = mmap(NULL, sizeof uncounted, PROT_READ | PROT_WRITE, MAP_SHARED, file, 0);
    close(file);
    real_start = (starter *)dlsym(RTLD_NEXT, "pthread_create");
    if (mapped == MAP_FAILED || !real_start)
        _exit(125);
    counts = mapped;
    refused = number_in("REFUSE");
    unstarted = number_in("UNSTARTED");
    later = number_in("LATER");
    is_ready = 1;
}

static int is_refused(void)
{
    if (!is_ready || __atomic_add_fetch(&counts[0], 1, __ATOMIC_SEQ_CST) != refused)
        return 0;
    errno = ENOMEM;
    return 1;
}

void *malloc(size_t size)
{
    return is_refused() ? NULL : __libc_malloc(size);
}

void *calloc(size_t count, size_t size)
{
    return is_refused() ? NULL : __libc_calloc(count, size);
}

void *realloc(void *at, size_t size)
{
    return is_refused() ? NULL : __libc_realloc(at, size);
}

int pthread_create(pthread_t *thread, const pthread_attr_t *attributes, void *(*body)(void *), void *argument)
{
    long number = __atomic_add_fetch(&counts[1], 1, __ATOMIC_SEQ_CST);
    if (unstarted && (later ? number >= unstarted : number == unstarted))
        return EAGAIN;
    return real_start(thread, attributes, body, argument);
}
