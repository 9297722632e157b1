/* Loaded before the C library's own functions: counts how often a program asks for memory, refuses the time that REFUSED names,
 * and says at the end, in the file that TOLD names, how often it asked, and how often it had when it first read the file STREAM.
 * `tools/gate/try_memory` builds and uses it. */
#define _GNU_SOURCE
#include <errno.h>
#include <fcntl.h>
#include <stdarg.h>
#include <stdio.h>
#include <stdlib.h>
#include <string.h>
#include <sys/syscall.h>
#include <unistd.h>

extern void *__libc_malloc(size_t size);
extern void *__libc_calloc(size_t count, size_t size);
extern void *__libc_realloc(void *old, size_t size);
extern void *__libc_memalign(size_t alignment, size_t size);

static long asked;
static long asked_at_first_read = -1;
static int stream = -1;

static long number_in(const char *name)
{
    const char *text = getenv(name);
    return text ? atol(text) : 0;
}

static int is_refused(void)
{
    asked += 1;
    if (asked != number_in("REFUSED"))
        return 0;
    errno = ENOMEM;
    return 1;
}

void *malloc(size_t size) { return is_refused() ? NULL : __libc_malloc(size); }

void *calloc(size_t count, size_t size) { return is_refused() ? NULL : __libc_calloc(count, size); }

void *realloc(void *old, size_t size) { return is_refused() ? NULL : __libc_realloc(old, size); }

void *aligned_alloc(size_t alignment, size_t size) { return is_refused() ? NULL : __libc_memalign(alignment, size); }

int posix_memalign(void **place, size_t alignment, size_t size)
{
    void *made = is_refused() ? NULL : __libc_memalign(alignment, size);
    if (!made)
        return ENOMEM;
    *place = made;
    return 0;
}

static int opened(int folder, const char *path, int flags, int mode)
{
    int file = (int)syscall(SYS_openat, folder, path, flags, mode);
    const char *name = getenv("STREAM");
    if (file >= 0 && name && strcmp(path, name) == 0)
        stream = file;
    return file;
}

#define OPENED(folder)                 \
    va_list more;                      \
    va_start(more, flags);             \
    int mode = va_arg(more, int);      \
    va_end(more);                      \
    return opened(folder, path, flags, mode)

int open(const char *path, int flags, ...) { OPENED(AT_FDCWD); }
int open64(const char *path, int flags, ...) { OPENED(AT_FDCWD); }
int openat(int folder, const char *path, int flags, ...) { OPENED(folder); }
int openat64(int folder, const char *path, int flags, ...) { OPENED(folder); }

ssize_t read(int file, void *bytes, size_t size)
{
    if (file == stream && asked_at_first_read < 0)
        asked_at_first_read = asked;
    return syscall(SYS_read, file, bytes, size);
}

__attribute__((destructor)) static void tell(void)
{
    char text[64];
    const char *name = getenv("TOLD");
    int file = name ? (int)syscall(SYS_openat, AT_FDCWD, name, O_WRONLY | O_CREAT | O_TRUNC, 0600) : -1;
    if (file >= 0) {
        int size = snprintf(text, sizeof text, "%ld %ld\n", asked, asked_at_first_read);
        if (write(file, text, (size_t)size) != size)
            _exit(99);
        close(file);
    }
}
