/* Replaces the system's read and write in a program that it is loaded into: every other read is interrupted before it takes a
 * byte, and a write takes at most seven. When the program exits, standard error says how often that happened. */
#include <errno.h>
#include <stdio.h>
#include <sys/syscall.h>
#include <sys/types.h>
#include <unistd.h>

static unsigned long interrupted, shortened;

ssize_t read(int file, void *to, size_t count)
{
    static int turn;
    turn = !turn;
    if (turn) {
        interrupted++;
        errno = EINTR;
        return -1;
    }
    return syscall(SYS_read, file, to, count);
}

ssize_t write(int file, const void *from, size_t count)
{
    if (count > 7) {
        shortened++;
        count = 7;
    }
    return syscall(SYS_write, file, from, count);
}

__attribute__((destructor)) static void say(void)
{
    char line[80];
    int length = snprintf(line, sizeof line, "interrupted %lu shortened %lu\n", interrupted, shortened);
    syscall(SYS_write, 2, line, (size_t)length);
}
