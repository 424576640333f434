#define _DEFAULT_SOURCE

#include "durable.h"

#include <errno.h>
#include <fcntl.h>
#include <stdio.h>
#include <sys/file.h>
#include <sys/stat.h>
#include <unistd.h>

/* Closes a descriptor after a failure, which errno goes on to tell. */
static void drop(int fd)
{
    int error = errno;
    close(fd);
    errno = error;
}

/* Waits until what was written is on the disk. Another failure than EINTR is final: the data may be lost already. */
static int sync_whole(int fd)
{
    int done;
    do
        done = fsync(fd);
    while (done == -1 && errno == EINTR);
    return done;
}

int durable_open(const char *path)
{
    int folder = open(path, O_RDONLY | O_DIRECTORY | O_CLOEXEC);
    if (folder == -1)
        return -1;
    if (flock(folder, LOCK_EX | LOCK_NB) == -1) {
        drop(folder);
        return -1;
    }
    return folder;
}

static ssize_t read_whole(int fd, uint8_t *bytes, size_t room)
{
    size_t length = 0;
    while (length < room) {
        ssize_t got = read(fd, bytes + length, room - length);
        if (got == 0)
            break;
        if (got > 0)
            length += (size_t)got;
        else if (errno != EINTR)
            return -1;
    }
    return (ssize_t)length;
}

ssize_t durable_read(int folder, const char *name, uint8_t *bytes, size_t room)
{
    /* A pipe in the place of the file would keep us waiting without O_NONBLOCK. It is no file of ours. */
    int fd = openat(folder, name, O_RDONLY | O_NOFOLLOW | O_NONBLOCK | O_CLOEXEC);
    struct stat status;
    ssize_t length = -1;
    if (fd == -1)
        return -1;
    if (fstat(fd, &status) == 0) {
        if (S_ISREG(status.st_mode))
            length = read_whole(fd, bytes, room);
        else
            errno = EINVAL;
    }
    drop(fd);
    return length;
}

static int write_whole(int fd, const uint8_t *bytes, size_t length)
{
    while (length > 0) {
        ssize_t put = write(fd, bytes, length);
        if (put == 0)
            errno = ENOSPC;
        if (put == 0 || (put == -1 && errno != EINTR))
            return -1;
        if (put > 0) {
            bytes += put;
            length -= (size_t)put;
        }
    }
    return 0;
}

/* Writes a new file and waits until its bytes are on the disk. */
static int write_new(int folder, const char *name, const uint8_t *bytes, size_t length)
{
    /* The file is there already where an earlier run was killed before it could rename it. */
    if (unlinkat(folder, name, 0) == -1 && errno != ENOENT)
        return -1;
    int fd = openat(folder, name, O_WRONLY | O_CREAT | O_EXCL | O_CLOEXEC, 0666);
    if (fd == -1)
        return -1;
    if (write_whole(fd, bytes, length) == -1 || sync_whole(fd) == -1) {
        drop(fd);
        return -1;
    }
    return close(fd) == -1 && errno != EINTR ? -1 : 0;
}

enum { BESIDE = 76 };

/* Gives the name of the file that is written beside another before it takes its name. */
static int name_beside(char *beside, const char *name)
{
    int size = snprintf(beside, BESIDE, "%s.conepalhui-new", name);
    if (size >= 0 && size < BESIDE)
        return 0;
    errno = ENAMETOOLONG;
    return -1;
}

/* Removes a file that is written beside another after a failure, which errno goes on to tell. */
static int give_up(int folder, const char *beside)
{
    int error = errno;
    unlinkat(folder, beside, 0); /* On a full disk its room is wanted. */
    errno = error;
    return -1;
}

int durable_replace(int folder, const char *name, const uint8_t *bytes, size_t length)
{
    char beside[BESIDE];
    if (name_beside(beside, name) == -1)
        return -1;
    if (write_new(folder, beside, bytes, length) == -1 || renameat(folder, beside, folder, name) == -1)
        return give_up(folder, beside);
    return sync_whole(folder); /* The new name is in the folder, and is to stay there. */
}

int durable_create(int folder, const char *name, const uint8_t *bytes, size_t length)
{
    char beside[BESIDE];
    if (name_beside(beside, name) == -1)
        return -1;
    /* A second name is given only where it is free: unlike a new name it takes no other file's place. */
    if (write_new(folder, beside, bytes, length) == -1 || linkat(folder, beside, folder, name, 0) == -1)
        return give_up(folder, beside);
    if (unlinkat(folder, beside, 0) == -1)
        return -1;
    return sync_whole(folder);
}

int durable_remove(int folder, const char *name)
{
    if (unlinkat(folder, name, 0) == -1 && errno != ENOENT)
        return -1;
    /* Also where it was not there: an earlier run may have been killed before its removal was on the disk. */
    return sync_whole(folder);
}
