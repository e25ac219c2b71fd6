/* Loaded before a program (LD_PRELOAD) it refuses one allocation, that of the number REFUSE, and says so on standard error. */
#include <stdlib.h>
#include <unistd.h>

void *__libc_malloc(size_t size);
void *__libc_realloc(void *old, size_t size);

static const char line[] = "an allocation is refused\n";
static long number, refused;

__attribute__((constructor)) static void begin(void)
{
    const char *text = getenv("REFUSE");
    refused = text ? atol(text) : 0;
    number = 0;
}

static int is_refused(void)
{
    number++;
    if (number != refused)
        return 0;
    if (write(STDERR_FILENO, line, sizeof line - 1) < 0)
        abort();
    return 1;
}

void *malloc(size_t size)
{
    return is_refused() ? NULL : __libc_malloc(size);
}

void *realloc(void *old, size_t size)
{
    return is_refused() ? NULL : __libc_realloc(old, size);
}
