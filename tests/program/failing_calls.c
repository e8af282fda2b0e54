/* Loaded before the program's own libraries, this makes one chosen call of one kind fail, as the system may.

   FAIL_KIND  memory, read, write or thread
   FAIL_AT    which call of that kind fails, from 1; a write to standard error doesn't count
   FAIL_HOW   error, interrupted, or nothing (a write that takes no byte)
   FAIL_MARK  a file that is made where that call is met */
#define _GNU_SOURCE
#include <dlfcn.h>
#include <errno.h>
#include <fcntl.h>
#include <pthread.h>
#include <stdlib.h>
#include <string.h>
#include <sys/syscall.h>
#include <unistd.h>

extern void *__libc_malloc(size_t size);
extern void *__libc_realloc(void *old, size_t size);

static const char *kind = "", *how = "error", *mark;
static long at, calls;

__attribute__((constructor)) static void read_words(void) {
    if (getenv("FAIL_AT") == NULL)
        return;
    kind = getenv("FAIL_KIND");
    how = getenv("FAIL_HOW");
    mark = getenv("FAIL_MARK");
    at = atol(getenv("FAIL_AT"));
}

/* Counts a call of a kind, and says whether it is the one that fails. */
static int fails(const char *of) {
    if (at == 0 || strcmp(kind, of) != 0 || __atomic_add_fetch(&calls, 1, __ATOMIC_SEQ_CST) != at)
        return 0;
    syscall(SYS_close, syscall(SYS_open, mark, O_CREAT | O_WRONLY, 0600));
    return 1;
}

static ssize_t failed(void) {
    if (strcmp(how, "nothing") == 0)
        return 0;
    errno = strcmp(how, "interrupted") == 0 ? EINTR : EIO;
    return -1;
}

void *malloc(size_t size) {
    if (fails("memory")) {
        errno = ENOMEM;
        return NULL;
    }
    return __libc_malloc(size);
}

void *realloc(void *old, size_t size) {
    if (fails("memory")) {
        errno = ENOMEM;
        return NULL;
    }
    return __libc_realloc(old, size);
}

ssize_t read(int file, void *bytes, size_t size) {
    return fails("read") ? failed() : syscall(SYS_read, file, bytes, size);
}

ssize_t write(int file, const void *bytes, size_t size) {
    return file != 2 && fails("write") ? failed() : syscall(SYS_write, file, bytes, size);
}

ssize_t __write(int file, const void *bytes, size_t size) {
    return write(file, bytes, size);
}

int pthread_create(pthread_t *thread, const pthread_attr_t *attributes, void *(*start)(void *), void *argument) {
    static int (*real)(pthread_t *, const pthread_attr_t *, void *(*)(void *), void *);
    if (fails("thread"))
        return EAGAIN;
    if (real == NULL)
        *(void **)&real = dlsym(RTLD_NEXT, "pthread_create");
    return real(thread, attributes, start, argument);
}
