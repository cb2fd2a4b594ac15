/* Stands between a program and read and write (LD_PRELOAD), and makes them do what a system may do: move few bytes at a
   time, be interrupted, fail. What it does stands in the environment, a number each; what is not there is not done:
     SHIM_READ_MOST, SHIM_WRITE_MOST              a call moves at most so many bytes
     SHIM_READ_INTERRUPTS, SHIM_WRITE_INTERRUPTS  before each call that moves bytes so many are interrupted (EINTR)
     SHIM_READ_AFTER, SHIM_WRITE_AFTER            after so many bytes, of standard output only, calls fail
     SHIM_READ_ERROR, SHIM_WRITE_ERROR            with this errno
     SHIM_READ_TIMES, SHIM_WRITE_TIMES            so many of them, then they move bytes again (for ever)
   It ends the program with status 95 at once if SHIM_HERE is set; 96 if the program tries a failing call a thousand
   times; 97 if it reads another descriptor than 0; 98 if it writes another than 1 and 2. */
#define _GNU_SOURCE
#include <dlfcn.h>
#include <errno.h>
#include <limits.h>
#include <stdio.h>
#include <stdlib.h>
#include <unistd.h>

typedef ssize_t (*call)(int, void *, size_t);

/* One direction: what is done to it, and what was done so far. */
struct direction {
    const char *name;
    long most, interrupts, after, error, times;
    long moved, interrupted, failed;
};

static call real_read, real_write;
static struct direction in = {.name = "READ"}, out = {.name = "WRITE"}, err = {.name = "WRITE"};

static long setting(const char *direction, const char *what, long otherwise) {
    char name[64];
    snprintf(name, sizeof name, "SHIM_%s_%s", direction, what);
    const char *text = getenv(name);
    return text ? atol(text) : otherwise;
}

__attribute__((constructor)) static void start(void) {
    struct direction *all[3] = {&in, &out, &err};
    real_read = (call)dlsym(RTLD_NEXT, "read");
    real_write = (call)dlsym(RTLD_NEXT, "write");
    if (getenv("SHIM_HERE")) {
        _exit(95);
    }
    for (int i = 0; i < 3; i++) {
        all[i]->most = setting(all[i]->name, "MOST", LONG_MAX);
        all[i]->interrupts = setting(all[i]->name, "INTERRUPTS", 0);
        all[i]->after = setting(all[i]->name, "AFTER", LONG_MAX);
        all[i]->error = setting(all[i]->name, "ERROR", EIO);
        all[i]->times = setting(all[i]->name, "TIMES", LONG_MAX);
    }
    err.after = LONG_MAX; /* so that a failure can be told */
}

static ssize_t move(struct direction *d, call real, int descriptor, void *bytes, size_t count) {
    if (d->interrupted < d->interrupts) {
        d->interrupted++;
        errno = EINTR;
        return -1;
    }
    d->interrupted = 0;
    if (d->moved >= d->after && d->failed < d->times) {
        if (++d->failed > 1000) {
            _exit(96);
        }
        errno = (int)d->error;
        return -1;
    }
    size_t most = (size_t)d->most;
    if (d->moved < d->after && most > (size_t)(d->after - d->moved)) {
        most = (size_t)(d->after - d->moved);
    }
    ssize_t moved = real(descriptor, bytes, count < most ? count : most);
    d->moved += moved > 0 ? moved : 0;
    return moved;
}

ssize_t read(int descriptor, void *bytes, size_t count) {
    if (descriptor != 0) {
        _exit(97);
    }
    return move(&in, real_read, descriptor, bytes, count);
}

ssize_t write(int descriptor, const void *bytes, size_t count) {
    if (descriptor != 1 && descriptor != 2) {
        _exit(98);
    }
    return move(descriptor == 1 ? &out : &err, real_write, descriptor, (void *)bytes, count);
}
