/* Syncs that take longer, loaded before the C library's: each waits SLOW_SYNC microseconds more, and so does each write to a file that was
   opened to be synced at once (O_DSYNC), as a barrier of a disk would. */
#define _GNU_SOURCE
#include <fcntl.h>
#include <stdlib.h>
#include <sys/syscall.h>
#include <sys/types.h>
#include <time.h>
#include <unistd.h>

static struct timespec more;

__attribute__((constructor)) static void begin(void)
{
    const char *word = getenv("SLOW_SYNC");
    long microseconds = word ? strtol(word, NULL, 10) : 0;
    more.tv_sec = microseconds / 1000000;
    more.tv_nsec = microseconds % 1000000 * 1000;
}

static long slowly(long result)
{
    struct timespec left = more;
    while (nanosleep(&left, &left) != 0) {
    }
    return result;
}

int fdatasync(int file)
{
    return (int)slowly(syscall(SYS_fdatasync, file));
}

int fsync(int file)
{
    return (int)slowly(syscall(SYS_fsync, file));
}

ssize_t pwrite64(int file, const void *bytes, size_t count, off64_t at)
{
    ssize_t written = syscall(SYS_pwrite64, file, bytes, count, at);
    return fcntl(file, F_GETFL) & O_DSYNC ? slowly(written) : written;
}

ssize_t pwrite(int file, const void *bytes, size_t count, off_t at)
{
    return pwrite64(file, bytes, count, at);
}
