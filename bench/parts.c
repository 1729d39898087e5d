// Stands before the system's read, so that callgrind counts the instructions of each part of an input. A part ends with
// an empty line; its lines come by reads of their own, and what is counted between is what the program does for them.
#define _GNU_SOURCE
#include <string.h>
#include <sys/syscall.h>
#include <unistd.h>
#include <valgrind/callgrind.h>

static int is_new = 1;

ssize_t read(int descriptor, void *into, size_t size) {
    if (descriptor != 0) return syscall(SYS_read, descriptor, into, size);
    if (is_new) CALLGRIND_DUMP_STATS;
    CALLGRIND_TOGGLE_COLLECT;
    long count = syscall(SYS_read, 0, into, size);
    char *end = count > 0 ? memmem(into, count, "\n\n", 2) : NULL;
    is_new = end != NULL;
    if (is_new) {
        long taken = end + 2 - (char *)into;
        syscall(SYS_lseek, 0, taken - count, SEEK_CUR);
        count = taken;
    }
    CALLGRIND_TOGGLE_COLLECT;
    return count;
}
