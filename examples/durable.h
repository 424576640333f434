/*
 * durable.h: small files in one folder, read whole, and replaced or removed so that a kill or a power cut at any moment
 * leaves the old file or the new one, or none where it was removed, and never a part of either.
 */
#ifndef DURABLE_H
#define DURABLE_H

#include <stddef.h>
#include <stdint.h>
#include <sys/types.h>

/*
 * Opens a folder for the calls below and keeps every other process out of it that opens it so. The folder is free
 * again when the process ends, in whatever way. Gives a descriptor, or -1 with errno: EWOULDBLOCK where another
 * process has it.
 */
int durable_open(const char *path);

/*
 * Reads the first bytes of a file, room of them at most. Gives how many there are, or -1 with errno: ELOOP where name
 * is a symbolic link. A file that is replaced has to be the file itself: what a link leads to would stay as it was.
 */
ssize_t durable_read(int folder, const char *name, uint8_t *bytes, size_t room);

/*
 * Makes these bytes the contents of the file name, which need not be there yet. Gives 0 once they would outlast a
 * power cut. Gives -1 with errno otherwise: the file is then the old one or the new one. name has at most 60
 * characters, and the file name.conepalhui-new belongs to this call, which removes what is there without a look. A new
 * file has the mode that the umask leaves of 0666.
 */
int durable_replace(int folder, const char *name, const uint8_t *bytes, size_t length);

/*
 * The same for a file name that is not there yet, and never takes another file's place: where there is one, or anything
 * else of that name, it gives -1 with EEXIST. After any other failure the new file may be there, whole, or not.
 */
int durable_create(int folder, const char *name, const uint8_t *bytes, size_t length);

/*
 * Removes the file name, which need not be there. Gives 0 once a power cut would not bring it back. Gives -1 with errno
 * otherwise: the file may then be there or not.
 */
int durable_remove(int folder, const char *name);

#endif
