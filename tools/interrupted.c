/* Loaded before the C library (LD_PRELOAD): of four reads and writes the first is broken off by a signal, the second finds nothing ready,
   and the other two move at most seven bytes. With CLOSE_FAILS in the environment, closing standard output fails, and so does bringing a
   file to its disk; with TAKES_NOTHING, all that happens is that a pipe takes no byte of a write. */
#include <errno.h>
#include <stddef.h>
#include <stdlib.h>
#include <sys/stat.h>
#include <sys/syscall.h>
#include <sys/types.h>
#include <unistd.h>

static ssize_t moved(long call, int fd, const void *bytes, size_t length)
{
    static unsigned calls;
    unsigned turn = calls++ % 4;
    if (getenv("TAKES_NOTHING")) {
        struct stat is;
        if (call == SYS_write && fstat(fd, &is) == 0 && S_ISFIFO(is.st_mode))
            return 0;
    } else if (fd != STDERR_FILENO) {
        if (turn < 2) {
            errno = turn == 0 ? EINTR : EAGAIN;
            return -1;
        }
        if (length > 7)
            length = 7;
    }
    return syscall(call, fd, bytes, length);
}

ssize_t read(int fd, void *bytes, size_t length)
{
    return moved(SYS_read, fd, bytes, length);
}

ssize_t write(int fd, const void *bytes, size_t length)
{
    return moved(SYS_write, fd, bytes, length);
}

int close(int fd)
{
    if (fd == STDOUT_FILENO && getenv("CLOSE_FAILS")) {
        errno = EIO;
        return -1;
    }
    return (int)syscall(SYS_close, fd);
}

int fdatasync(int fd)
{
    if (getenv("CLOSE_FAILS")) {
        errno = EIO;
        return -1;
    }
    return (int)syscall(SYS_fdatasync, fd);
}
