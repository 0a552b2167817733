/* A Unix socket at a path, for the examples. */
#ifndef SOCKETS_H
#define SOCKETS_H
#include <errno.h>
#include <stdbool.h>
#include <string.h>
#include <sys/socket.h>
#include <sys/stat.h>
#include <sys/un.h>
#include <unistd.h>

/* Whether a socket may stand at a path: anything that is there and no socket stays, and a path that is empty or too long would have the socket stand
 * elsewhere, where every user of the machine reaches it. Where it may not, errno tells why. */
static inline bool clear_path(const char *path, size_t room)
{
    struct stat there;
    if (path[0] == '\0' || strlen(path) >= room)
        errno = path[0] == '\0' ? EINVAL : ENAMETOOLONG;
    else if (lstat(path, &there) != 0)
        return errno == ENOENT;
    else if (!S_ISSOCK(there.st_mode))
        errno = ENOTSOCK;
    else
        return unlink(path) == 0;
    return false;
}

/* Listens at a path, of which an old socket goes, for so many connections; -1, and errno, where it can't. */
static inline int listen_at(const char *path, int waiting)
{
    struct sockaddr_un name = { .sun_family = AF_UNIX };
    if (!clear_path(path, sizeof name.sun_path))
        return -1;
    strcpy(name.sun_path, path);
    int listener = socket(AF_UNIX, SOCK_STREAM | SOCK_CLOEXEC, 0);
    if (listener >= 0 && bind(listener, (struct sockaddr *)&name, sizeof name) == 0 && listen(listener, waiting) == 0)
        return listener;
    int why = errno;
    if (listener >= 0)
        close(listener);
    errno = why;
    return -1;
}

#endif
