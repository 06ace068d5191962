/* A library to load before a program, by LD_PRELOAD. It refuses the program's calls of malloc and realloc: the
   one whose number, from 1, is the word REFUSE of the environment, or where REFUSE_ALL is set, that and all later ones.
   It says so on standard error, once. */
#define _GNU_SOURCE
#include <dlfcn.h>
#include <stdlib.h>
#include <unistd.h>

static int refuses(void)
{
    static const char said[] = "an allocation was refused\n";
    static _Atomic long count;
    static long wanted;
    static int all;
    long nth = ++count;
    if (nth == 1) {
        const char *word = getenv("REFUSE");
        wanted = word ? atol(word) : 0;
        all = getenv("REFUSE_ALL") != NULL;
    }
    if (wanted == 0 || nth < wanted || (nth > wanted && !all))
        return 0;
    return nth > wanted || write(2, said, sizeof said - 1) >= 0;
}

void *malloc(size_t size)
{
    static void *(*next)(size_t);
    if (!next)
        next = (void *(*)(size_t))dlsym(RTLD_NEXT, "malloc");
    return refuses() ? NULL : next(size);
}

void *realloc(void *block, size_t size)
{
    static void *(*next)(void *, size_t);
    if (!next)
        next = (void *(*)(void *, size_t))dlsym(RTLD_NEXT, "realloc");
    return refuses() ? NULL : next(block, size);
}
