/* Loaded before the C library (LD_PRELOAD): lets a call of a program's fail. FAIL names the call, FAIL_AT says which one, counted
   from 1, and FAIL_WITH has its errno. A read moves at most 1,000 octets, so that a file takes several. CALLS is a file to which
   the names of the calls that make a file durable are appended. */
#define _GNU_SOURCE
#include <dlfcn.h>
#include <errno.h>
#include <fcntl.h>
#include <stdlib.h>
#include <string.h>
#include <sys/stat.h>
#include <sys/types.h>
#include <unistd.h>

static int fails(const char *call)
{
    static int calls;
    const char *name = getenv("FAIL");
    if (name == NULL || strcmp(name, call) != 0 || ++calls != atoi(getenv("FAIL_AT")))
        return 0;
    errno = atoi(getenv("FAIL_WITH"));
    return 1;
}

static void note(const char *call)
{
    const char *path = getenv("CALLS");
    if (path == NULL)
        return;
    int fd = open(path, O_WRONLY | O_CREAT | O_APPEND, 0600);
    ssize_t (*next)(int, const void *, size_t) = dlsym(RTLD_NEXT, "write");
    if (fd < 0 || next(fd, call, strlen(call)) < 0 || next(fd, "\n", 1) < 0)
        abort();
    close(fd);
}

ssize_t read(int fd, void *to, size_t n)
{
    ssize_t (*next)(int, void *, size_t) = dlsym(RTLD_NEXT, "read");
    return fails("read") ? -1 : next(fd, to, n < 1000 ? n : 1000);
}

ssize_t write(int fd, const void *from, size_t n)
{
    ssize_t (*next)(int, const void *, size_t) = dlsym(RTLD_NEXT, "write");
    if (fd <= 2)
        return next(fd, from, n);
    note("write");
    return fails("write") ? -1 : next(fd, from, n);
}

int fsync(int fd)
{
    int (*next)(int) = dlsym(RTLD_NEXT, "fsync");
    struct stat st;
    note(fstat(fd, &st) == 0 && S_ISDIR(st.st_mode) ? "fsync of the folder" : "fsync");
    return fails("fsync") ? -1 : next(fd);
}

int rename(const char *from, const char *to)
{
    int (*next)(const char *, const char *) = dlsym(RTLD_NEXT, "rename");
    note("rename");
    return fails("rename") ? -1 : next(from, to);
}

int fchown(int fd, uid_t owner, gid_t group)
{
    int (*next)(int, uid_t, gid_t) = dlsym(RTLD_NEXT, "fchown");
    return fails("fchown") ? -1 : next(fd, owner, group);
}

int fchmod(int fd, mode_t mode)
{
    int (*next)(int, mode_t) = dlsym(RTLD_NEXT, "fchmod");
    return fails("fchmod") ? -1 : next(fd, mode);
}
