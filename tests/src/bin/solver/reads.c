/* Stands before the C library's `read` in a program: each letter of the variable READS is the answer to one read of standard
 * input. `i` fails as a read that a signal interrupts, `e` as one that the device fails, and `b` gives one byte at most. Reads
 * past the last letter are left alone. */
#define _GNU_SOURCE
#include <errno.h>
#include <stdlib.h>
#include <sys/syscall.h>
#include <unistd.h>

ssize_t read(int descriptor, void *area, size_t room) {
    static const char *next;
    if (next == NULL) {
        next = getenv("READS");
    }
    char letter = '\0';
    if (descriptor == STDIN_FILENO && next != NULL && *next != '\0') {
        letter = *next++;
    }
    if (letter == 'i' || letter == 'e') {
        errno = letter == 'i' ? EINTR : EIO;
        return -1;
    }
    return syscall(SYS_read, descriptor, area, letter == 'b' && room > 1 ? 1 : room);
}
