/* The functions that the proved program needs in addition to the C library: its arguments and its error number. This file
   replaces the kit's own C code on processors for which the kit has none. */
#include <errno.h>
#include <stddef.h>
#include <string.h>
#include <sys/types.h>

size_t rattle_arg_count(void);
ssize_t rattle_arg(size_t i, char *to, size_t room);
int rattle_errno(void);
void rattle_set_errno(int error);

static size_t count;
static char **words;

__attribute__((constructor)) static void store_arguments(int argc, char **argv)
{
    count = (size_t)argc;
    words = argv;
}

size_t rattle_arg_count(void)
{
    return count;
}

/* Copies an argument. Returns its length; -1 if there is no such argument; -2 if it does not fit, and then the room is full. */
ssize_t rattle_arg(size_t i, char *to, size_t room)
{
    size_t length;
    if (i >= count)
        return -1;
    length = strlen(words[i]);
    memcpy(to, words[i], length < room ? length : room);
    return length > room ? -2 : (ssize_t)length;
}

int rattle_errno(void)
{
    return errno;
}

void rattle_set_errno(int error)
{
    errno = error;
}
