/* What the kit's library os has in C, for a program that is compiled for this machine to be timed. */
#include <errno.h>
#include <fcntl.h>
#include <stddef.h>
#include <stdint.h>
#include <sys/types.h>

int rattle_errno(void) { return errno; }

void rattle_set_errno(int error) { errno = error; }

int rattle_open_to_read(const char *path) { return open(path, O_RDONLY | O_CLOEXEC); }

/* A program that is timed has no arguments. */
size_t rattle_arg_count(void) { return 1; }

ssize_t rattle_arg(size_t i, uint8_t *buffer, size_t length) {
    (void)i, (void)buffer, (void)length;
    return -1;
}
