/* A system that notes the threads that are started, and that can't open or read a file.
   tests/program.d/system preloads it into the program.

   Each start of a thread is a byte on descriptor 9, where that is open. A file whose name ends as
   FAILS says can't be opened where FAILS_TO_OPEN has the number of an error, which is then the
   reason, and can't be read where FAILS_TO_READ has one. */
#define _GNU_SOURCE
#include <dlfcn.h>
#include <errno.h>
#include <fcntl.h>
#include <pthread.h>
#include <stdarg.h>
#include <stdlib.h>
#include <string.h>
#include <unistd.h>

static int (*real_create)(pthread_t *, const pthread_attr_t *, void *(*)(void *), void *);
static int (*real_open)(const char *, int, ...);
static ssize_t (*real_read)(int, void *, size_t);
static const char *name_end;
static int open_error, read_error;
/* The descriptor of the file that can't be read. */
static int failing = -1;

static int error_in(const char *name) {
    const char *number = getenv(name);
    return number ? atoi(number) : 0;
}

__attribute__((constructor)) static void find_calls(void) {
    real_create = (int (*)(pthread_t *, const pthread_attr_t *, void *(*)(void *), void *))dlsym(
        RTLD_NEXT, "pthread_create");
    real_open = (int (*)(const char *, int, ...))dlsym(RTLD_NEXT, "open");
    real_read = (ssize_t(*)(int, void *, size_t))dlsym(RTLD_NEXT, "read");
    name_end = getenv("FAILS");
    open_error = error_in("FAILS_TO_OPEN");
    read_error = error_in("FAILS_TO_READ");
}

static int is_named(const char *path) {
    if (!name_end || strlen(path) < strlen(name_end))
        return 0;
    return !strcmp(path + strlen(path) - strlen(name_end), name_end);
}

int pthread_create(pthread_t *thread, const pthread_attr_t *attributes, void *(*routine)(void *),
                   void *argument) {
    ssize_t noted = write(9, "x", 1);
    (void)noted;
    return real_create(thread, attributes, routine, argument);
}

int open(const char *path, int flags, ...) {
    va_list more;
    va_start(more, flags);
    mode_t mode = flags & O_CREAT ? va_arg(more, mode_t) : 0;
    va_end(more);
    if (open_error && is_named(path)) {
        errno = open_error;
        return -1;
    }
    int file = real_open(path, flags, mode);
    if (is_named(path))
        failing = file;
    return file;
}

ssize_t read(int file, void *room, size_t size) {
    if (read_error && file >= 0 && file == failing) {
        errno = read_error;
        return -1;
    }
    return real_read(file, room, size);
}
