// Stands before the C library in a run of runs.py, which says what the variables mean. It tells of each read,
// write, open and close, and disturbs them.
#define _GNU_SOURCE
#include <errno.h>
#include <fcntl.h>
#include <linux/filter.h>
#include <linux/seccomp.h>
#include <signal.h>
#include <stdarg.h>
#include <stddef.h>
#include <stdio.h>
#include <stdlib.h>
#include <string.h>
#include <sys/prctl.h>
#include <sys/syscall.h>
#include <unistd.h>

static int file = -1, teller = -1;
static long most, left, error, interrupts, interrupted;
static const char *failing, *stopping;

// What a run that is confined may ask of the system: the calls that are told, and those of memory, signals and the end.
static const int ALLOWED[] = {
    SYS_read, SYS_write, SYS_openat, SYS_close, SYS_brk, SYS_mmap, SYS_munmap, SYS_mremap, SYS_mprotect, SYS_madvise,
    SYS_getrandom, SYS_rt_sigaction, SYS_rt_sigreturn, SYS_exit_group,
};
enum { COUNT = sizeof ALLOWED / sizeof *ALLOWED };

static long number(const char *name) {
    const char *text = getenv(name);
    return text ? atol(text) : 0;
}

static const char *word(const char *name) {
    const char *text = getenv(name);
    return text ? text : "";
}

static void tell_signal(int signal) {
    unsigned char byte = signal;
    int kept = errno;
    syscall(SYS_write, teller, &byte, 1);
    errno = kept;
}

// Calls that such a signal interrupts aren't made again by the system. A 0 tells that the handlers stand.
static void handle(const char *signals) {
    struct sigaction action = {.sa_handler = tell_signal};
    char *rest = (char *)signals;
    teller = number("TELL");
    while (*rest)
        sigaction(strtol(rest, &rest, 10), &action, NULL);
    tell_signal(0);
}

static void confine(void) {
    struct sock_filter filter[2 * COUNT + 2];
    filter[0] = (struct sock_filter)BPF_STMT(BPF_LD | BPF_W | BPF_ABS, offsetof(struct seccomp_data, nr));
    for (int i = 0; i < COUNT; i++) {
        filter[2 * i + 1] = (struct sock_filter)BPF_JUMP(BPF_JMP | BPF_JEQ | BPF_K, ALLOWED[i], 0, 1);
        filter[2 * i + 2] = (struct sock_filter)BPF_STMT(BPF_RET | BPF_K, SECCOMP_RET_ALLOW);
    }
    filter[2 * COUNT + 1] = (struct sock_filter)BPF_STMT(BPF_RET | BPF_K, SECCOMP_RET_KILL_PROCESS);
    struct sock_fprog program = {2 * COUNT + 2, filter};
    if (prctl(PR_SET_NO_NEW_PRIVS, 1, 0, 0, 0) || prctl(PR_SET_SECCOMP, SECCOMP_MODE_FILTER, &program))
        abort();
}

__attribute__((constructor)) static void start(void) {
    most = number("MOST");
    left = number("AT");
    error = number("AS");
    interrupts = number("INTERRUPT");
    failing = word("FAIL");
    stopping = word("STOP");
    int opened = syscall(SYS_openat, AT_FDCWD, getenv("LOG"), O_WRONLY | O_APPEND);
    file = fcntl(opened, F_DUPFD_CLOEXEC, 500);
    syscall(SYS_close, opened);
    if (getenv("HANDLE"))
        handle(getenv("HANDLE"));
    if (number("CONFINE"))
        confine();
}

static long told(const char *name, long descriptor, long size, long answer) {
    char line[120];
    int kept = errno;
    int length = snprintf(line, sizeof line, "%s %ld %ld %ld\n", name, descriptor, size, answer < 0 ? -kept : answer);
    syscall(SYS_write, file, line, length);
    errno = kept;
    return answer;
}

static int is_next(const char *name, const char *chosen) { return !strcmp(name, chosen) && left > 0 && --left == 0; }

// Whether the call is not to be made, but to have this answer.
static int is_disturbed(const char *name, long descriptor, long size, long *answer) {
    if (interrupted < interrupts) {
        interrupted++;
        errno = EINTR;
        *answer = told(name, descriptor, size, -1);
        return 1;
    }
    interrupted = 0;
    if (is_next(name, stopping))
        kill(getpid(), SIGSTOP);
    if (!is_next(name, failing))
        return 0;
    errno = error;
    *answer = told(name, descriptor, size, error ? -1 : 0);
    return 1;
}

static size_t shorter(size_t size) { return most && size > (size_t)most ? (size_t)most : size; }

ssize_t read(int descriptor, void *into, size_t size) {
    long answer;
    size = shorter(size);
    if (is_disturbed("read", descriptor, size, &answer))
        return answer;
    return told("read", descriptor, size, syscall(SYS_read, descriptor, into, size));
}

ssize_t write(int descriptor, const void *bytes, size_t size) {
    long answer;
    size = shorter(size);
    if (is_disturbed("write", descriptor, size, &answer))
        return answer;
    return told("write", descriptor, size, syscall(SYS_write, descriptor, bytes, size));
}

ssize_t __write(int descriptor, const void *bytes, size_t size) { return write(descriptor, bytes, size); }

int open(const char *path, int flags, ...) {
    long answer;
    va_list more;
    va_start(more, flags);
    int mode = va_arg(more, int);
    va_end(more);
    if (is_disturbed("open", -1, 0, &answer))
        return answer;
    return told("open", -1, 0, syscall(SYS_openat, AT_FDCWD, path, flags, mode));
}

int open64(const char *path, int flags, ...) __attribute__((alias("open")));

// A descriptor is closed even where the call fails, and the call isn't made again.
int close(int descriptor) {
    int answer = syscall(SYS_close, descriptor);
    if (!is_next("close", failing))
        return told("close", descriptor, 0, answer);
    errno = error;
    return told("close", descriptor, 0, error ? -1 : 0);
}
