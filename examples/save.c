/* save.c -- a packet to its file: all of it, or the file is as it was */
#define _GNU_SOURCE
#include <errno.h>
#include <fcntl.h>
#include <stdio.h>
#include <stdlib.h>
#include <string.h>
#include <sys/stat.h>
#include <unistd.h>
#include "save.h"

/* A file that is there, or none: a device or a pipe would be lost by a rename. */
static int may_replace(const char *path)
{
    struct statx there;

    return statx(AT_FDCWD, path, 0, STATX_TYPE, &there) != 0 || S_ISREG(there.stx_mode);
}

static int write_bytes(const struct packet *packet, const char *path)
{
    FILE *file = fopen(path, "wbx");
    int failed;

    if (file == NULL)
        return -1;
    failed = fwrite(packet->bytes, 1, packet->size, file) != packet->size || fflush(file) != 0 || fsync(fileno(file)) != 0;
    failed |= fclose(file) != 0;
    return failed ? -1 : 0;
}

int packet_save(const struct packet *packet, const char *program)
{
    const char *out = packet->path;
    size_t room = strlen(out) + 32;
    char *beside = malloc(room);
    int status = -1;

    if (!may_replace(out)) {
        say(program, out, "not written: it is there, and is no plain file");
    } else if (beside != NULL) {
        snprintf(beside, room, "%s.%ld.new", out, (long)getpid());
        status = write_bytes(packet, beside) == 0 && rename(beside, out) == 0 ? 0 : -1;
        if (status != 0) {
            say(program, out, "not written: %s", strerror(errno));
            remove(beside);
        }
    }
    free(beside);
    return status;
}
