/* Makes syncs of files fail, or take longer, once a test says so: loaded before the library by LD_PRELOAD. */
#include <errno.h>
#include <stdatomic.h>
#include <sys/syscall.h>
#include <unistd.h>

static _Atomic int fails, microseconds;

void fail_syncs(int now) { fails = now; }
void slow_syncs(int longer) { microseconds = longer; }

int fdatasync(int fd) {
    if (microseconds) usleep((useconds_t)microseconds);
    if (fails) {
        errno = EIO;
        return -1;
    }
    return (int)syscall(SYS_fdatasync, fd);
}
