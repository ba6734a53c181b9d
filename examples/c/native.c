/* Calls the functions of counters.c and sums.c natively, and prints what each call returned, with its thread: the calls that
   tests/c_runs.sh lets tlsld run. Without an argument the functions are linked in. With the name of a shared object they are opened,
   called, closed, and opened and called again, before the second thread calls them. */
#include <dlfcn.h>
#include <pthread.h>
#include <stdio.h>

extern int next(void) __attribute__((weak));
extern int before(void) __attribute__((weak));
extern long add(long) __attribute__((weak));

static int (*call_next)(void);
static int (*call_before)(void);
static long (*call_add)(long);

static void *open_module(const char *name)
{
    void *module = dlopen(name, RTLD_NOW);
    call_next = (int (*)(void))dlsym(module, "next");
    call_before = (int (*)(void))dlsym(module, "before");
    call_add = (long (*)(long))dlsym(module, "add");
    return module;
}

static void first(void)
{
    printf("t1 %x\n", (unsigned)call_next());
    printf("t1 %lx\n", (unsigned long)call_add(3));
    printf("t1 %x\n", (unsigned)call_before());
    printf("t1 %x\n", (unsigned)call_next());
    printf("t1 %lx\n", (unsigned long)call_add(-90));
}

static void *second(void *unused)
{
    printf("t2 %x\n", (unsigned)call_next());
    printf("t2 %x\n", (unsigned)call_before());
    printf("t2 %lx\n", (unsigned long)call_add(1));
    return unused;
}

int main(int count, char **names)
{
    pthread_t thread;
    if (count > 1) {
        void *module = open_module(names[1]);
        first();
        dlclose(module);
        open_module(names[1]);
    } else {
        call_next = next;
        call_before = before;
        call_add = add;
    }
    first();
    pthread_create(&thread, NULL, second, NULL);
    pthread_join(thread, NULL);
    return 0;
}
