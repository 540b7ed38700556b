/* Preloaded into a program: its device calls are counted: files opened, reads, writes but those to standard error, and files renamed. The call
   number FAIL fails by EIO, or each of those that EACH names in turn (each.h), and with FAIL_ALL each one from there on; with FAIL_NOTHING it moves no byte, and with FAIL_KILL the program
   is killed there. With FAIL_SHORT each read and write moves one byte at most. At the program's end it writes to the file descriptor
   FAIL_TOLD which calls there were: o, r, w or n, in their order. */
#include "each.h"
#include <stdarg.h>
#include <sys/uio.h>

static long wanted = -1, called;
static int all, nothing, kill_there, short_ones;
static char kinds[1 << 20];

static void settle(void)
{
    const char *number = getenv("FAIL");
    wanted = number ? strtol(number, NULL, 10) : 0;
    all = getenv("FAIL_ALL") != NULL;
    nothing = getenv("FAIL_NOTHING") != NULL;
    kill_there = getenv("FAIL_KILL") != NULL;
    short_ones = getenv("FAIL_SHORT") != NULL;
    each_settle();
}

static int fails(char kind)
{
    if (wanted < 0)
        settle();
    if (called < (long)sizeof kinds)
        kinds[called] = kind;
    called += 1;
    if (each_fails(called))
        wanted = called;
    if (wanted == 0 || !(all ? called >= wanted : called == wanted))
        return 0;
    if (kill_there)
        raise(SIGKILL);
    errno = EIO;
    return 1;
}

static size_t room(size_t count) { return short_ones && count > 1 ? 1 : count; }

__attribute__((destructor)) static void tell(void)
{
    const char *number = getenv("FAIL_TOLD");
    if (number && !each.is_copy)
        syscall(SYS_write, (int)strtol(number, NULL, 10), kinds, called < (long)sizeof kinds ? called : (long)sizeof kinds);
}

ssize_t read(int file, void *into, size_t count)
{
    return fails('r') ? -1 : syscall(SYS_read, file, into, room(count));
}

ssize_t write(int file, const void *from, size_t count)
{
    if (file != 2 && fails('w'))
        return nothing ? 0 : -1;
    return syscall(SYS_write, file, from, file == 2 ? count : room(count));
}

/* What the kit writes in parts goes here: with FAIL_SHORT its first part's first byte. */
ssize_t writev(int file, const struct iovec *parts, int count)
{
    if (file != 2 && fails('w'))
        return nothing ? 0 : -1;
    for (; file != 2 && short_ones && count > 0; parts++, count--)
        if (parts->iov_len)
            return syscall(SYS_write, file, parts->iov_base, 1);
    return syscall(SYS_writev, file, parts, count);
}

int open(const char *name, int flags, ...)
{
    va_list rest;
    va_start(rest, flags);
    int mode = va_arg(rest, int);
    va_end(rest);
    return fails('o') ? -1 : syscall(SYS_openat, AT_FDCWD, name, flags, mode);
}

int rename(const char *old, const char *new)
{
    return fails('n') ? -1 : syscall(SYS_renameat2, AT_FDCWD, old, AT_FDCWD, new, 0);
}
