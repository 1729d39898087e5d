// Rows of 256 bits looked through by plain loops, which the compiler makes of lanes as it sees fit: how many nanoseconds a
// row takes. Of each row it is asked whether it is a subset of another one; and all words are added up, which is as fast as
// memory gives them.
#include <stdint.h>
#include <stdio.h>
#include <stdlib.h>
#include <time.h>

typedef struct { uint64_t words[4]; } Row;

static double now(void) {
    struct timespec at;
    clock_gettime(CLOCK_PROCESS_CPUTIME_ID, &at);
    return 1e9 * at.tv_sec + at.tv_nsec;
}

// The compiler may not take what was read before for what is read again.
static void forget(void) { __asm__ volatile("" ::: "memory"); }

// The numbers of the rows that are subsets, appended.
__attribute__((noinline)) static size_t subsets(const Row *rows, size_t count, Row of, uint32_t *found) {
    size_t taken = 0;
    for (size_t i = 0; i < count; i++) {
        uint64_t outside = 0;
        for (int k = 0; k < 4; k++) outside |= rows[i].words[k] & ~of.words[k];
        if (outside == 0) found[taken++] = i;
    }
    return taken;
}

__attribute__((noinline)) static uint64_t sum(const Row *rows, size_t count) {
    uint64_t all = 0;
    for (size_t i = 0; i < count; i++)
        for (int k = 0; k < 4; k++) all += rows[i].words[k];
    return all;
}

int main(int argc, char **argv) {
    size_t count = argc > 1 ? atol(argv[1]) : 200000, repeats = argc > 2 ? atol(argv[2]) : 100;
    Row *rows = calloc(count, sizeof(Row)), of = {{1, 0, 0, 0}};
    uint32_t *found = malloc(count * sizeof(uint32_t));
    for (size_t i = 0; i < count; i++) {
        rows[i].words[0] = 2;
        rows[i].words[i % 4] |= 1ull << (i % 61);
    }
    double least_of_subsets = 1e18, least_of_sums = 1e18;
    uint64_t told = 0;
    for (int turn = 0; turn < 3; turn++) {
        double start = now();
        for (size_t n = 0; n < repeats; n++, forget()) told += subsets(rows, count, of, found);
        double between = now();
        for (size_t n = 0; n < repeats; n++, forget()) told += sum(rows, count);
        double end = now();
        if (between - start < least_of_subsets) least_of_subsets = between - start;
        if (end - between < least_of_sums) least_of_sums = end - between;
    }
    printf("%.3f %.3f %d\n", least_of_subsets / count / repeats, least_of_sums / count / repeats, (int)(told & 1));
    return 0;
}
