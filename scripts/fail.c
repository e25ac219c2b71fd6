/* Loaded before a program (LD_PRELOAD) it fails one call on a file, of the kind FAIL (sync, write or read) and the number FAIL_AT, as a
   broken disk would, and says so on standard error. */
#define _GNU_SOURCE
#include <dlfcn.h>
#include <errno.h>
#include <stdlib.h>
#include <string.h>
#include <sys/types.h>
#include <unistd.h>

static const char line[] = "a call on the disk fails\n";
static const char *kind;
static long number, failing;

__attribute__((constructor)) static void begin(void)
{
    const char *at = getenv("FAIL_AT");
    kind = getenv("FAIL");
    failing = at && kind ? atol(at) : 0;
    number = 0;
}

static int fails(const char *name)
{
    if (failing == 0 || strcmp(kind, name) != 0 || ++number != failing)
        return 0;
    if (write(STDERR_FILENO, line, sizeof line - 1) < 0)
        abort();
    errno = EIO;
    return 1;
}

#define OTHER(name) __typeof__(&name) other = (__typeof__(&name))dlsym(RTLD_NEXT, #name)

int fsync(int fd)
{
    OTHER(fsync);
    return fails("sync") ? -1 : other(fd);
}

int fdatasync(int fd)
{
    OTHER(fdatasync);
    return fails("sync") ? -1 : other(fd);
}

ssize_t pwrite(int fd, const void *bytes, size_t size, off_t at)
{
    OTHER(pwrite);
    return fails("write") ? -1 : other(fd, bytes, size, at);
}

ssize_t pwrite64(int fd, const void *bytes, size_t size, off64_t at)
{
    OTHER(pwrite64);
    return fails("write") ? -1 : other(fd, bytes, size, at);
}

ssize_t pread(int fd, void *bytes, size_t size, off_t at)
{
    OTHER(pread);
    return fails("read") ? -1 : other(fd, bytes, size, at);
}

ssize_t pread64(int fd, void *bytes, size_t size, off64_t at)
{
    OTHER(pread64);
    return fails("read") ? -1 : other(fd, bytes, size, at);
}
