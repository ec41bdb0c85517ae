/*
 * A `read` for tests/verdict, loaded before the C library's. The letters of the environment variable READS say what
 * becomes of each call in turn: i a signal interrupts it, f it fails, p it reads at most 7 bytes, r it reads as asked, as
 * does every call behind the last letter.
 */
#define _GNU_SOURCE
#include <errno.h>
#include <stdlib.h>
#include <sys/syscall.h>
#include <unistd.h>

#define PIECE 7

static char next_letter(void)
{
    static const char *letters;
    if (letters == NULL)
        letters = getenv("READS");
    return letters == NULL || *letters == '\0' ? 'r' : *letters++;
}

ssize_t read(int fd, void *buffer, size_t size)
{
    switch (next_letter()) {
    case 'i':
        errno = EINTR;
        return -1;
    case 'f':
        errno = EIO;
        return -1;
    case 'p':
        return syscall(SYS_read, fd, buffer, size < PIECE ? size : PIECE);
    default:
        return syscall(SYS_read, fd, buffer, size);
    }
}
