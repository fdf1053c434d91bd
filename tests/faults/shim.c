// Calls of `read` and `write` that go wrong, to load before the C library:
//
//   cc -shared -fPIC -O2 -o shim.so shim.c
//   LD_PRELOAD=$PWD/shim.so SHIM=short program ..
//
// SHIM says what goes wrong, one word or several, as `short,eintr`:
//   short    a call moves at most 7 bytes
//   eintr    every second call, the first among them, fails with EINTR
//   endless  every call fails with EINTR
//   eio      the second call on a descriptor fails with EIO
//   zero     a write takes nothing and answers 0
// SHIM_FDS, as `0,1,3`, names the descriptors that it is for, and SHIM_FOR the program, by the last part of its path; without
// them it is for all. Calls are counted for reading and for writing apart, and for `eio` by descriptor.
#define _GNU_SOURCE
#include <errno.h>
#include <stdlib.h>
#include <string.h>
#include <sys/syscall.h>
#include <unistd.h>

enum { SHORTEST = 7, DESCRIPTORS = 64 };

// Whether the word is one of SHIM.
static int is_set(const char *word) {
    const char *at = getenv("SHIM");
    size_t length = strlen(word);
    while (at != NULL && *at != '\0') {
        const char *end = strchrnul(at, ',');
        if ((size_t)(end - at) == length && memcmp(at, word, length) == 0) return 1;
        at = *end == ',' ? end + 1 : end;
    }
    return 0;
}

// Whether the descriptor is one of SHIM_FDS, and the program SHIM_FOR.
static int is_named(int fd) {
    const char *at = getenv("SHIM_FDS"), *program = getenv("SHIM_FOR");
    if (program != NULL && strcmp(program, program_invocation_short_name) != 0) return 0;
    if (at == NULL) return 1;
    while (*at != '\0') {
        char *behind;
        long named = strtol(at, &behind, 10);
        if (behind == at) return 0;
        if (named == fd) return 1;
        at = *behind == ',' ? behind + 1 : behind;
    }
    return 0;
}

// The errno that the call fails with, or 0; counted by `calls`, and by `on` for each descriptor.
static int fault(int fd, unsigned *calls, unsigned *on) {
    unsigned turn = (*calls)++;
    unsigned here = fd >= 0 && fd < DESCRIPTORS ? on[fd]++ : 0;
    if (is_set("endless")) return EINTR;
    if (is_set("eintr") && turn % 2 == 0) return EINTR;
    if (is_set("eio") && here == 1) return EIO;
    return 0;
}

static size_t shortened(size_t count) {
    return is_set("short") && count > SHORTEST ? SHORTEST : count;
}

ssize_t read(int fd, void *buffer, size_t count) {
    static unsigned calls, on[DESCRIPTORS];
    if (is_named(fd)) {
        int error = fault(fd, &calls, on);
        if (error != 0) {
            errno = error;
            return -1;
        }
        count = shortened(count);
    }
    return syscall(SYS_read, fd, buffer, count);
}

ssize_t write(int fd, const void *buffer, size_t count) {
    static unsigned calls, on[DESCRIPTORS];
    if (is_named(fd)) {
        int error = fault(fd, &calls, on);
        if (error != 0) {
            errno = error;
            return -1;
        }
        if (is_set("zero")) return 0;
        count = shortened(count);
    }
    return syscall(SYS_write, fd, buffer, count);
}
