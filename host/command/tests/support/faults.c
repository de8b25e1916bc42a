/* Calls put between the program and the system's library; FAULT in the environment chooses what fails or lies. */
#define _GNU_SOURCE
#include <dlfcn.h>
#include <errno.h>
#include <fcntl.h>
#include <stdlib.h>
#include <string.h>
#include <sys/file.h>
#include <sys/stat.h>
#include <unistd.h>

#define NEXT(name) ((__typeof__(&name))dlsym(RTLD_NEXT, #name))

static int fault(const char *name) {
    const char *chosen = getenv("FAULT");
    return chosen && !strcmp(chosen, name);
}

static int regular(int fd) {
    struct stat found;
    return !fstat(fd, &found) && S_ISREG(found.st_mode);
}

static int failed(int error) {
    errno = error;
    return -1;
}

/* Puts a line in the file `log`. */
static void noted(const char *line) {
    if (fault("log")) {
        int fd = open("log", O_WRONLY | O_CREAT | O_APPEND, 0666);
        if (NEXT(write)(fd, line, strlen(line)) < 0) abort();
        close(fd);
    }
}

ssize_t write(int fd, const void *bytes, size_t count) {
    static int turn;
    if (fault("interrupted") && turn++ % 2 == 0) return failed(EINTR);
    if (fault("halves") && count > 1) return NEXT(write)(fd, bytes, count / 2);
    if (!regular(fd)) return NEXT(write)(fd, bytes, count);
    noted("write\n");
    if (fault("io")) return failed(EIO);
    if (fault("lose") && count > 20) return NEXT(write)(fd, bytes, count - 1) + 1;
    if (fault("flip") && count > 20) {
        char *copy = malloc(count);
        memcpy(copy, bytes, count);
        copy[count - 1] ^= 1;
        ssize_t done = NEXT(write)(fd, copy, count);
        free(copy);
        return done;
    }
    return NEXT(write)(fd, bytes, count);
}

ssize_t read(int fd, void *bytes, size_t count) {
    static int turn;
    if (fault("interrupted") && turn++ % 2 == 0) return failed(EINTR);
    return NEXT(read)(fd, bytes, fault("halves") && count > 7 ? 7 : count);
}

static int synced(int fd) {
    noted(regular(fd) ? "sync of the file\n" : "sync of the folder\n");
    return fault("sync") && regular(fd);
}

int fsync(int fd) {
    return synced(fd) ? failed(EIO) : NEXT(fsync)(fd);
}

int fdatasync(int fd) {
    return synced(fd) ? failed(EIO) : NEXT(fdatasync)(fd);
}

int flock(int fd, int operation) {
    static int turn;
    if (fault("interrupted") && turn++ % 2 == 0) return failed(EINTR);
    return fault("no locks") ? failed(ENOLCK) : NEXT(flock)(fd, operation);
}

int rename(const char *from, const char *to) {
    noted("rename\n");
    return fault("rename") ? failed(EIO) : NEXT(rename)(from, to);
}

int linkat(int from_folder, const char *from, int to_folder, const char *to, int flags) {
    noted("link\n");
    if (fault("no links") || fault("rename")) return failed(EPERM);
    if (fault("late") && symlink("theirs", to)) abort();
    return NEXT(linkat)(from_folder, from, to_folder, to, flags);
}

int link(const char *from, const char *to) {
    return linkat(AT_FDCWD, from, AT_FDCWD, to, 0);
}
