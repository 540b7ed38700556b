/* Many failures in one run: where one of them is due, a copy of the process goes on with it, and the process waits for the copy's end
   and goes on without it. So no failure costs a start of the program, or its way to the failure. EACH names the file descriptor that
   has the numbers of the failures, as longs that rise; to EACH_TOLD goes what each copy came to: its number, its status as `waitpid` has it, how
   many bytes it put, how many of these are standard error's and how many files there are, as longs, then the bytes, then each
   file's name, its size and its bytes. Standard output and standard error have to be files. EACH_FOLDER is the folder of the files that the program makes, and EACH_SAVED
   an empty one beside it: what a copy does to those files is undone. The clock stands still while the process waits. Nothing here grows the
   heap or makes a call that a library counts. */
#define _GNU_SOURCE
#include <dirent.h>
#include <errno.h>
#include <fcntl.h>
#include <signal.h>
#include <stdlib.h>
#include <string.h>
#include <sys/mman.h>
#include <sys/prctl.h>
#include <sys/sendfile.h>
#include <sys/stat.h>
#include <sys/syscall.h>
#include <sys/wait.h>
#include <time.h>
#include <unistd.h>

enum { FILES = 8, NAME = 64, HANDLES = 64, SECONDS = 120 };

static const long NANOSECONDS = 1000000000;

struct made {
    char name[NAME];
    long size;
};

static struct {
    const long *numbers;
    long count, next;
    long waited; /* nanoseconds */
    int told, folder, saved, is_copy;
} each = {.told = -1, .folder = -1, .saved = -1};

static int each_handle(const char *name)
{
    const char *number = getenv(name);
    return number ? (int)strtol(number, NULL, 10) : -1;
}

static void each_settle(void)
{
    int numbers = each_handle("EACH");
    struct stat of;
    if (numbers < 0 || fstat(numbers, &of) || !of.st_size)
        return;
    each.numbers = mmap(NULL, of.st_size, PROT_READ, MAP_PRIVATE, numbers, 0);
    if (each.numbers == MAP_FAILED)
        abort();
    each.count = of.st_size / sizeof(long);
    each.told = each_handle("EACH_TOLD");
    each.folder = each_handle("EACH_FOLDER");
    each.saved = each_handle("EACH_SAVED");
}

/* The files of the folder, and how many there are. */
static int each_made(struct made *made)
{
    char buffer[4096];
    int count = 0;
    struct stat of;
    if (each.folder < 0)
        return 0;
    lseek(each.folder, 0, SEEK_SET);
    for (long got; (got = syscall(SYS_getdents64, each.folder, buffer, sizeof buffer)) > 0;)
        for (long at = 0; at < got;) {
            struct dirent64 *one = (void *)(buffer + at);
            at += one->d_reclen;
            if (!strcmp(one->d_name, ".") || !strcmp(one->d_name, ".."))
                continue;
            if (count == FILES || strlen(one->d_name) >= NAME || fstatat(each.folder, one->d_name, &of, 0))
                abort();
            memset(made[count].name, 0, NAME);
            strcpy(made[count].name, one->d_name);
            made[count++].size = of.st_size;
        }
    return count;
}

/* The files get a second name each. */
static void each_save(const struct made *made, int count)
{
    for (int at = 0; at < count; at++)
        if (linkat(each.folder, made[at].name, each.saved, made[at].name, 0))
            abort();
}

/* The files are those with a second name, at their size, and lose it. */
static void each_restore(const struct made *made, int count)
{
    struct made now[FILES];
    for (int at = 0, left = each_made(now); at < left; at++)
        unlinkat(each.folder, now[at].name, 0);
    for (int at = 0; at < count; at++) {
        if (linkat(each.saved, made[at].name, each.folder, made[at].name, 0) || unlinkat(each.saved, made[at].name, 0))
            abort();
        int file = syscall(SYS_openat, each.folder, made[at].name, O_WRONLY);
        if (file < 0 || ftruncate(file, made[at].size))
            abort();
        close(file);
    }
}

/* Nanoseconds of a clock. */
static long each_time(clockid_t clock)
{
    struct timespec now = {0};
    return syscall(SYS_clock_gettime, clock, &now) ? -1 : now.tv_sec * NANOSECONDS + now.tv_nsec;
}

int clock_gettime(clockid_t clock, struct timespec *now)
{
    long at = each_time(clock);
    if (at < 0)
        return -1;
    at -= each.waited;
    *now = (struct timespec){.tv_sec = at / NANOSECONDS, .tv_nsec = at % NANOSECONDS};
    return 0;
}

static long each_size(int file)
{
    struct stat of;
    if (fstat(file, &of))
        abort();
    return of.st_size;
}

static void each_put(const void *bytes, long size)
{
    for (const char *at = bytes; size > 0;) {
        long done = syscall(SYS_write, each.told, at, size);
        if (done <= 0)
            abort();
        at += done;
        size -= done;
    }
}

/* All bytes of a file go behind what the other one has. */
static void each_copied(int to, int from)
{
    off_t at = 0;
    for (long left = each_size(from); left > 0;) {
        long done = sendfile(to, from, &at, left);
        if (done <= 0)
            abort();
        left -= done;
    }
}

/* What the copy came to. */
static void each_tell(long number, int status, int out, int error)
{
    struct made made[FILES];
    int count = each_made(made);
    long head[] = {number, status, each_size(out) + each_size(error), each_size(error), count};
    each_put(head, sizeof head);
    each_copied(each.told, out);
    each_copied(each.told, error);
    for (int at = 0; at < count; at++) {
        int file = syscall(SYS_openat, each.folder, made[at].name, O_RDONLY);
        if (file < 0)
            abort();
        each_put(&made[at], sizeof made[at]);
        each_copied(each.told, file);
        close(file);
    }
}

/* In the copy: what was put so far stands in its own files, and it ends with the process at the latest. */
static void each_begin(int out, int error)
{
    each.is_copy = 1;
    each.count = each.next = 0;
    prctl(PR_SET_PDEATHSIG, SIGKILL);
    alarm(SECONDS);
    each_copied(out, 1);
    each_copied(error, 2);
    if (dup2(out, 1) < 0 || dup2(error, 2) < 0)
        abort();
    close(out);
    close(error);
}

/* Whether the failure of this number is to be: where it is due, in the copy alone. */
static int each_fails(long number)
{
    if (each.next == each.count || each.numbers[each.next] != number)
        return 0;
    each.next++;
    int before = errno, status;
    long from = each_time(CLOCK_MONOTONIC);
    off_t offsets[HANDLES];
    for (int handle = 0; handle < HANDLES; handle++)
        offsets[handle] = lseek(handle, 0, SEEK_CUR);
    struct made made[FILES];
    int count = each_made(made);
    each_save(made, count);
    int out = memfd_create("out", 0), error = memfd_create("error", 0);
    pid_t copy = fork();
    if (out < 0 || error < 0 || copy < 0)
        abort();
    if (copy == 0) {
        each_begin(out, error);
        errno = before;
        return 1;
    }
    while (waitpid(copy, &status, 0) != copy)
        if (errno != EINTR)
            abort();
    each_tell(number, status, out, error);
    each_restore(made, count);
    for (int handle = 0; handle < HANDLES; handle++)
        if (offsets[handle] >= 0 && handle != each.told)
            lseek(handle, offsets[handle], SEEK_SET);
    close(out);
    close(error);
    each.waited += each_time(CLOCK_MONOTONIC) - from;
    errno = before;
    return 0;
}
