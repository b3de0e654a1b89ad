/* Refuses memory to a program, for tools/program.sh: with LD_PRELOAD, the growth of number REFUSE fails, counted from 1, and then the
   file REFUSED is made. Growths are calls that allocate or enlarge, whichever function of the C library is called. */
#define _GNU_SOURCE
#include <dlfcn.h>
#include <errno.h>
#include <fcntl.h>
#include <stdlib.h>
#include <unistd.h>

static long left = -1;

static int is_refused(void)
{
    if (left < 0) {
        const char *number = getenv("REFUSE");
        left = number ? atol(number) : 0;
    }
    if (left == 0 || --left > 0)
        return 0;
    const char *told = getenv("REFUSED");
    if (told)
        close(open(told, O_CREAT | O_WRONLY, 0644));
    errno = ENOMEM;
    return 1;
}

void *malloc(size_t length)
{
    static void *(*real)(size_t);
    if (!real)
        real = (void *(*)(size_t))dlsym(RTLD_NEXT, "malloc");
    return is_refused() ? NULL : real(length);
}

void *realloc(void *at, size_t length)
{
    static void *(*real)(void *, size_t);
    if (!real)
        real = (void *(*)(void *, size_t))dlsym(RTLD_NEXT, "realloc");
    return is_refused() ? NULL : real(at, length);
}

int posix_memalign(void **at, size_t alignment, size_t length)
{
    static int (*real)(void **, size_t, size_t);
    if (!real)
        real = (int (*)(void **, size_t, size_t))dlsym(RTLD_NEXT, "posix_memalign");
    return is_refused() ? ENOMEM : real(at, alignment, length);
}
