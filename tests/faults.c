// A library to preload. It lets calls of a program fail, as the environment says:
//
//     FAULT=memory | fail | short    requests for memory are refused; reads and writes fail; they move one byte
//     FAULT_AT=N                     the Nth such call, from 1 on; 0: none
//     FAULT_ALL=1                    and each one after it
//     FAULT_LOG=FILE                 gets a letter for each such call: m for memory, r for a read, o for a write to
//                                    standard output, e for one to standard error
#define _GNU_SOURCE
#include <errno.h>
#include <fcntl.h>
#include <stdlib.h>
#include <sys/syscall.h>
#include <unistd.h>

extern void *__libc_malloc(size_t), *__libc_realloc(void *, size_t), *__libc_calloc(size_t, size_t);

static char fault; // its first letter; 0 until the program begins
static long at, calls;
static int all, log_file;

__attribute__((constructor)) static void begin(void) {
    const char *kind = getenv("FAULT");
    if (!kind) return;
    at = atol(getenv("FAULT_AT"));
    all = getenv("FAULT_ALL") != NULL;
    log_file = syscall(SYS_openat, AT_FDCWD, getenv("FAULT_LOG"),
                       O_WRONLY | O_CREAT | O_TRUNC | O_CLOEXEC, 0600);
    fault = *kind;
}

static int is_struck(char letter) {
    syscall(SYS_write, log_file, &letter, 1);
    calls++;
    return calls == at || (all && at > 0 && calls > at);
}

static int is_refused(void) {
    if (fault != 'm' || !is_struck('m')) return 0;
    errno = ENOMEM;
    return 1;
}

void *malloc(size_t size) { return is_refused() ? NULL : __libc_malloc(size); }
void *realloc(void *old, size_t size) { return is_refused() ? NULL : __libc_realloc(old, size); }
void *calloc(size_t count, size_t size) { return is_refused() ? NULL : __libc_calloc(count, size); }

static ssize_t move(long call, int file, void *bytes, size_t count, char letter, int error) {
    int struck = (fault == 'f' || fault == 's') && is_struck(letter);
    if (struck && fault == 'f') {
        errno = error;
        return -1;
    }
    return syscall(call, file, bytes, struck && count > 1 ? 1 : count);
}

ssize_t read(int file, void *bytes, size_t count) {
    return move(SYS_read, file, bytes, count, 'r', EINTR);
}

ssize_t write(int file, const void *bytes, size_t count) {
    return move(SYS_write, file, (void *)bytes, count, file == 1 ? 'o' : 'e', EIO);
}
