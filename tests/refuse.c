/* Makes one call of the C library fail. Preload it with LD_PRELOAD; REFUSE then names the kind of call, its number from 1,
 * and what happens: "growth 3 fail" refuses the third allocation, "growth 3 onwards" that one and all later ones. A read
 * or a write can also be interrupted by a signal ("interrupt"), or move only one byte ("one"). At any call a signal can end
 * the program: "kill" or "int". "any 3 kill" counts the calls of all kinds.
 * When the call is refused, the file REFUSED is created. It contains the name of the file that the call was for, if any. */
#define _GNU_SOURCE
#include <dlfcn.h>
#include <errno.h>
#include <fcntl.h>
#include <netdb.h>
#include <signal.h>
#include <stdarg.h>
#include <stdio.h>
#include <stdlib.h>
#include <string.h>
#include <sys/file.h>
#include <sys/socket.h>
#include <sys/stat.h>
#include <unistd.h>

enum kind { GROWTH, READ, WRITE, OPEN, SOCKET, FILES, CLOSE, KINDS };

static const char *const names[KINDS] = {"growth", "read", "write", "open", "socket", "file", "close"};

enum fate { PASS, FAIL, INTERRUPT, ONE };

#define NEXT(name) ((__typeof__(&name))dlsym(RTLD_NEXT, #name))

/* Records that a call was refused, and for which file: by its name, or by its descriptor; a pipe is "-". */
static void tell_refused(const char *name, int file)
{
    char link[32], held[4096] = "";
    const char *mark = getenv("REFUSED");
    int out = mark ? creat(mark, 0600) : -1;
    if (out < 0)
        return;
    if (!name && file >= 0) {
        snprintf(link, sizeof link, "/proc/self/fd/%d", file);
        if (readlink(link, held, sizeof held - 1) < 0 || held[0] != '/')
            strcpy(held, "-");
    }
    dprintf(out, "%s", name ? name : held);
    NEXT(close)(out);
}

/* Counts this call and returns what happens to it. */
static enum fate fate_of(enum kind kind, const char *name, int file)
{
    static long calls;
    static char due[16], how[16];
    static long number;
    if (!number) {
        const char *text = getenv("REFUSE");
        if (!text || sscanf(text, "%15s %ld %15s", due, &number, how) != 3)
            number = -1;
    }
    if (number < 0 || (strcmp(names[kind], due) && strcmp(due, "any")))
        return PASS;
    long call = ++calls;
    if (call < number || (call > number && strcmp(how, "onwards")))
        return PASS;
    if (call == number)
        tell_refused(name, file);
    if (!strcmp(how, "kill") || !strcmp(how, "int"))
        raise(!strcmp(how, "kill") ? SIGKILL : SIGINT);
    return !strcmp(how, "interrupt") ? INTERRUPT : !strcmp(how, "one") ? ONE : FAIL;
}

/* A call that returns `refused` if it is refused, and sets errno to `reason`. */
#define REFUSABLE(kind, reason, refused, result, name, parameters, arguments) \
    result name parameters                                                    \
    {                                                                         \
        if (fate_of(kind, NULL, -1) != PASS) {                                \
            errno = reason;                                                   \
            return refused;                                                   \
        }                                                                     \
        return NEXT(name) arguments;                                          \
    }

/* A read or a write of a descriptor. */
#define MOVING(kind, name, bytes, parameters, arguments, one)     \
    ssize_t name parameters                                       \
    {                                                             \
        switch (count ? fate_of(kind, NULL, file) : PASS) {       \
        case PASS:                                                \
            return NEXT(name) arguments;                          \
        case ONE:                                                 \
            return NEXT(name) one;                                \
        case INTERRUPT:                                           \
            errno = EINTR;                                        \
            return -1;                                            \
        case FAIL:                                                \
            errno = EIO;                                          \
        }                                                         \
        return -1;                                                \
    }

/* (dlsym itself allocates only for its error texts, which are not needed here) */
REFUSABLE(GROWTH, ENOMEM, NULL, void *, malloc, (size_t size), (size))
REFUSABLE(GROWTH, ENOMEM, NULL, void *, realloc, (void *old, size_t size), (old, size))
REFUSABLE(SOCKET, EMFILE, -1, int, socket, (int domain, int type, int protocol), (domain, type, protocol))
REFUSABLE(SOCKET, EADDRINUSE, -1, int, bind, (int file, const struct sockaddr *at, socklen_t size), (file, at, size))
REFUSABLE(SOCKET, EADDRINUSE, -1, int, listen, (int file, int many), (file, many))
REFUSABLE(SOCKET, EMFILE, -1, int, accept4, (int file, struct sockaddr *at, socklen_t *size, int flags), (file, at, size, flags))
REFUSABLE(SOCKET, ECONNREFUSED, -1, int, connect, (int file, const struct sockaddr *at, socklen_t size), (file, at, size))
REFUSABLE(SOCKET, EAI_NONAME, EAI_NONAME, int, getaddrinfo,
          (const char *host, const char *port, const struct addrinfo *wanted, struct addrinfo **found), (host, port, wanted, found))
REFUSABLE(SOCKET, EINVAL, -1, int, setsockopt, (int file, int level, int option, const void *value, socklen_t size),
          (file, level, option, value, size))

MOVING(READ, read, bytes, (int file, void *bytes, size_t count), (file, bytes, count), (file, bytes, 1))
MOVING(READ, recv, bytes, (int file, void *bytes, size_t count, int flags), (file, bytes, count, flags), (file, bytes, 1, flags))
MOVING(WRITE, write, bytes, (int file, const void *bytes, size_t count), (file, bytes, count), (file, bytes, 1))
MOVING(WRITE, send, bytes, (int file, const void *bytes, size_t count, int flags), (file, bytes, count, flags), (file, bytes, 1, flags))

/* A call for a file, by its name or its descriptor. */
#define OF_FILE(kind, reason, refused, result, name, path, file, parameters, arguments) \
    result name parameters                                                              \
    {                                                                                   \
        if (fate_of(kind, path, file) != PASS) {                                        \
            errno = reason;                                                             \
            return refused;                                                             \
        }                                                                               \
        return NEXT(name) arguments;                                                    \
    }

OF_FILE(FILES, ENOLCK, -1, int, flock, NULL, file, (int file, int how), (file, how))
OF_FILE(FILES, EIO, -1, int, fsync, NULL, file, (int file), (file))
OF_FILE(FILES, EIO, -1, int, ftruncate, NULL, file, (int file, off_t length), (file, length))
OF_FILE(FILES, EPERM, -1, int, fchmod, NULL, file, (int file, mode_t mode), (file, mode))
OF_FILE(FILES, EIO, -1, off_t, lseek, NULL, file, (int file, off_t offset, int whence), (file, offset, whence))
OF_FILE(FILES, EIO, -1, int, rename, from, -1, (const char *from, const char *to), (from, to))
OF_FILE(FILES, EIO, -1, int, link, from, -1, (const char *from, const char *to), (from, to))
OF_FILE(FILES, EACCES, -1, ssize_t, readlink, path, -1, (const char *path, char *to, size_t size), (path, to, size))
OF_FILE(FILES, EACCES, -1, int, unlink, path, -1, (const char *path), (path))
OF_FILE(FILES, EACCES, NULL, char *, realpath, path, -1, (const char *path, char *resolved), (path, resolved))
OF_FILE(FILES, EACCES, -1, int, statx, *path ? path : NULL, file, (int file, const char *path, int flags, unsigned int mask, struct statx *found),
        (file, path, flags, mask, found))

/* The file is closed, whatever this returns. */
int close(int file)
{
    enum fate fate = fate_of(CLOSE, NULL, file);
    int closed = NEXT(close)(file);
    if (fate == PASS)
        return closed;
    errno = EIO;
    return -1;
}

static int opened(const char *name, const char *path, int flags, mode_t mode)
{
    if (fate_of(OPEN, path, -1) != PASS) {
        errno = EACCES;
        return -1;
    }
    return ((int (*)(const char *, int, ...))dlsym(RTLD_NEXT, name))(path, flags, mode);
}

#define OPENING(name)                          \
    int name(const char *path, int flags, ...) \
    {                                          \
        va_list more;                          \
        va_start(more, flags);                 \
        mode_t mode = va_arg(more, mode_t);    \
        va_end(more);                          \
        return opened(#name, path, flags, mode); \
    }

OPENING(open)
OPENING(open64)
