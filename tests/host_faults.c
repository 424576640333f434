/*
 * host_faults.c: stands between examples/ and the system, and makes one call of the host go wrong.
 *
 * It is linked with --wrap for each call below. The environment variable HOST_FAULT is 'KIND N': the host's call
 * number N, counted from 1, goes wrong in this way:
 *
 *   kill       the host is killed before the call is made
 *   leave      the same, and the power is cut while a later host runs: what the folder was not synced for is still open
 *   fail       the call is not made, and fails for good: the disk is full, or broken
 *   interrupt  the call is not made, and fails with EINTR
 *   short      one byte is read or written, and every call before and after it does the same
 *   lost       the power is cut before the call: no rename and no removal that the folder was not synced for is on the
 *              disk
 *   last       the power is cut before the call: of those only the last is on the disk
 *   torn       the power is cut before the call: of each file that was not synced nothing is on the disk
 */
#define _DEFAULT_SOURCE

#include <errno.h>
#include <fcntl.h>
#include <poll.h>
#include <signal.h>
#include <stdarg.h>
#include <stdbool.h>
#include <stdio.h>
#include <stdlib.h>
#include <string.h>
#include <sys/stat.h>
#include <unistd.h>

int __real_openat(int folder, const char *name, int flags, ...);
int __real_close(int fd);
int __real_fsync(int fd);
int __real_fflush(FILE *file);
int __real_poll(struct pollfd *fds, nfds_t count, int timeout);
int __real_unlinkat(int folder, const char *name, int flags);
int __real_renameat(int folder, const char *from, int to_folder, const char *to);
ssize_t __real_read(int fd, void *bytes, size_t length);
ssize_t __real_write(int fd, const void *bytes, size_t length);

int __wrap_openat(int folder, const char *name, int flags, ...);
int __wrap_close(int fd);
int __wrap_fsync(int fd);
int __wrap_fflush(FILE *file);
int __wrap_poll(struct pollfd *fds, nfds_t count, int timeout);
int __wrap_unlinkat(int folder, const char *name, int flags);
int __wrap_renameat(int folder, const char *from, int to_folder, const char *to);
ssize_t __wrap_read(int fd, void *bytes, size_t length);
ssize_t __wrap_write(int fd, const void *bytes, size_t length);

static char kind[16];
static long number;

static bool is_kind(const char *name)
{
    return strcmp(kind, name) == 0;
}

/* ---- What a power cut takes */

enum { MOST = 64, NAME = 48 };

static bool synced;                 /* whether the new file that is being written is on the disk */
static char torn[MOST][NAME];       /* the files that were renamed before they were on the disk */
static char open_names[MOST][NAME]; /* the files that were renamed to or removed since the folder was on the disk */
static int torn_count, open_count, disk = -1;

/* The file as it was before change number which is kept under this name until the folder is on the disk. */
static const char *kept_name(int which, const char *name)
{
    static char kept[2 * NAME];
    snprintf(kept, sizeof kept, ".kept.%d.%s", which, name);
    return kept;
}

/* Where there was no such file, an empty one has this name. */
static const char *none_name(int which, const char *name)
{
    static char none[2 * NAME];
    snprintf(none, sizeof none, ".none.%d.%s", which, name);
    return none;
}

static bool is_there(int folder, const char *name)
{
    return faccessat(folder, name, F_OK, 0) == 0;
}

static void forget(int folder, int which)
{
    __real_unlinkat(folder, kept_name(which, open_names[which]), 0);
    __real_unlinkat(folder, none_name(which, open_names[which]), 0);
}

/* A change of the folder: name is about to be replaced or removed. */
static void note_change(int folder, const char *name)
{
    if (open_count == MOST)
        abort();
    disk = folder;
    snprintf(open_names[open_count], NAME, "%s", name);
    if (is_kind("lost") || is_kind("last") || is_kind("leave")) {
        if (linkat(folder, name, folder, kept_name(open_count, name), 0) == -1)
            __real_close(__real_openat(folder, none_name(open_count, name), O_WRONLY | O_CREAT, 0666));
    }
    open_count++;
}

static void note_rename(int folder, const char *to)
{
    note_change(folder, to);
    if (torn_count == MOST)
        abort();
    if (!synced)
        snprintf(torn[torn_count++], NAME, "%s", to);
}

static void note_sync(int fd)
{
    struct stat status;
    if (fstat(fd, &status) == -1)
        abort();
    if (!S_ISDIR(status.st_mode)) {
        synced = true;
        return;
    }
    while (open_count > 0)
        forget(fd, --open_count);
}

/* Takes over the changes that an earlier host left open. The power is not cut any more where the kind is another. */
static void take_over(int folder)
{
    static const char *const names[] = {"plan", "seen", "cursor"};
    disk = folder;
    for (int i = 0; i < 3; i++)
        if (is_there(folder, kept_name(open_count, names[i])) || is_there(folder, none_name(open_count, names[i]))) {
            snprintf(open_names[open_count++], NAME, "%s", names[i]);
            i = -1; /* The next change may be of any of them. */
        }
    while (!is_kind("lost") && !is_kind("last") && open_count > 0)
        forget(folder, --open_count);
}

static void undo(int which)
{
    const char *name = open_names[which];
    if (__real_renameat(disk, kept_name(which, name), disk, name) == -1)
        __real_unlinkat(disk, name, 0);
}

static void cut_power(void)
{
    const char *last = open_count > 0 ? open_names[open_count - 1] : "";
    for (int i = open_count - 1; i >= 0; i--)
        if (is_kind("lost") || (is_kind("last") && strcmp(open_names[i], last) != 0))
            undo(i);
    for (int i = 0; i < torn_count && is_kind("torn"); i++)
        __real_close(__real_openat(disk, torn[i], O_WRONLY | O_TRUNC));
    while (open_count > 0)
        forget(disk, --open_count);
}

/* ---- What goes wrong */

/* Counts a call. Says whether it goes wrong, with errno. */
static bool goes_wrong(bool interruptible, int error)
{
    static long calls;
    const char *fault = getenv("HOST_FAULT");
    if (calls == 0 && (fault == NULL || sscanf(fault, "%15s %ld", kind, &number) != 2))
        abort();
    if (++calls != number)
        return false;
    if (is_kind("lost") || is_kind("last") || is_kind("torn"))
        cut_power();
    if (!is_kind("fail") && !is_kind("interrupt") && !is_kind("short"))
        raise(SIGKILL);
    errno = is_kind("interrupt") ? EINTR : error;
    return is_kind("fail") || (is_kind("interrupt") && interruptible);
}

/* ---- The calls */

int __wrap_openat(int folder, const char *name, int flags, ...)
{
    va_list rest;
    va_start(rest, flags);
    mode_t mode = (flags & O_CREAT) != 0 ? va_arg(rest, mode_t) : 0;
    va_end(rest);
    if (goes_wrong(false, (flags & O_CREAT) != 0 ? ENOSPC : EIO))
        return -1;
    if (disk == -1)
        take_over(folder);
    if ((flags & O_CREAT) != 0)
        synced = false;
    return __real_openat(folder, name, flags, mode);
}

int __wrap_close(int fd)
{
    return goes_wrong(false, EIO) ? -1 : __real_close(fd);
}

int __wrap_fsync(int fd)
{
    if (goes_wrong(true, EIO))
        return -1;
    note_sync(fd);
    return __real_fsync(fd);
}

int __wrap_fflush(FILE *file)
{
    return goes_wrong(false, ENOSPC) ? EOF : __real_fflush(file);
}

int __wrap_poll(struct pollfd *fds, nfds_t count, int timeout)
{
    return goes_wrong(true, ENOMEM) ? -1 : __real_poll(fds, count, timeout);
}

int __wrap_unlinkat(int folder, const char *name, int flags)
{
    if (goes_wrong(false, EIO))
        return -1;
    if (is_there(folder, name) && strstr(name, ".conepalhui-new") == NULL)
        note_change(folder, name);
    return __real_unlinkat(folder, name, flags);
}

int __wrap_renameat(int folder, const char *from, int to_folder, const char *to)
{
    if (goes_wrong(false, EIO))
        return -1;
    note_rename(folder, to);
    return __real_renameat(folder, from, to_folder, to);
}

ssize_t __wrap_read(int fd, void *bytes, size_t length)
{
    return goes_wrong(true, EIO) ? -1 : __real_read(fd, bytes, is_kind("short") && length > 1 ? 1 : length);
}

ssize_t __wrap_write(int fd, const void *bytes, size_t length)
{
    return goes_wrong(true, ENOSPC) ? -1 : __real_write(fd, bytes, is_kind("short") && length > 1 ? 1 : length);
}
