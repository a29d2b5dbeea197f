/*
 * Two kernels lane by lane under a mask, as a C programmer would write them for blocks of LANES
 * lanes, for the benchmark (docs/PERFORMANCE.md):
 *
 *   routine   document 01's routine: ten is added to a sample below ten and taken from any other,
 *             where the sample arrived
 *   while     each lane adds up the numbers from its own down to one; lanes leave one by one
 *
 * Called with the name of a kernel. Each line of standard input is answered by one line:
 *
 *   left      runs once, and prints what it leaves in the lanes of the two blocks that it writes
 *   run N     runs N times, each over the block anew, and prints the seconds of all together
 *   copy N    makes the block anew N times and prints the seconds, which are a part of the former
 */
#include <stdint.h>
#include <stdio.h>
#include <string.h>
#include <time.h>

#ifndef LANES
#error "LANES is how many lanes a block has"
#endif

/* A block: which samples arrived, the samples or numbers, and what the kernel keeps beside them. */
struct block {
    uint8_t arrived[LANES];
    int32_t first[LANES];
    int32_t second[LANES];
};

/* int block[LANES] t = 10; if (ok) { if (s < t) s = s + t; else s = s - t; } else ; */
static void routine(const uint8_t *restrict ok, int32_t *restrict s, int32_t *restrict t)
{
    for (int lane = 0; lane < LANES; lane++)
        t[lane] = 10;
    for (int lane = 0; lane < LANES; lane++) {
        uint32_t sample = (uint32_t)s[lane], ten = (uint32_t)t[lane];
        uint32_t moved = s[lane] < t[lane] ? sample + ten : sample - ten;
        s[lane] = ok[lane] ? (int32_t)moved : s[lane];
    }
}

/* int block[LANES] a = 0; while (0 < n) { a = a + n; n = n - 1; } */
static void sum(int32_t *restrict n, int32_t *restrict a)
{
    int32_t any = 1;
    for (int lane = 0; lane < LANES; lane++)
        a[lane] = 0;
    while (any) {
        any = 0;
        for (int lane = 0; lane < LANES; lane++) {
            int32_t mask = -(0 < n[lane]);
            any |= mask;
            a[lane] += n[lane] & mask;
            n[lane] += mask;
        }
    }
}

/* One run, which is not joined with the next one. */
__attribute__((noinline)) static void run(int is_routine, struct block *block)
{
    if (is_routine)
        routine(block->arrived, block->first, block->second);
    else
        sum(block->first, block->second);
    __asm__ volatile("" ::: "memory");
}

/* The block anew. */
__attribute__((noinline)) static void copy(struct block *block, const struct block *fresh)
{
    memcpy(block, fresh, sizeof *block);
    __asm__ volatile("" ::: "memory");
}

static double now(void)
{
    struct timespec time;
    clock_gettime(CLOCK_MONOTONIC, &time);
    return time.tv_sec + time.tv_nsec * 1e-9;
}

static void print_lanes(const struct block *block)
{
    for (int lane = 0; lane < LANES; lane++)
        printf("%d ", block->first[lane]);
    for (int lane = 0; lane < LANES; lane++)
        printf("%d%c", block->second[lane], lane + 1 < LANES ? ' ' : '\n');
}

int main(int count, char **words)
{
    static const int32_t samples[4] = {4, 7, 25, 90};
    int is_routine = count == 2 && strcmp(words[1], "routine") == 0;
    struct block fresh = {{0}, {0}, {0}}, block;
    char line[64];
    long times;
    for (int lane = 0; lane < LANES; lane++) {
        fresh.arrived[lane] = lane % 2 == 0;
        fresh.first[lane] = is_routine ? samples[lane % 4] : 10 * (lane + 1);
    }
    while (fgets(line, sizeof line, stdin) != NULL) {
        double start = now();
        if (strcmp(line, "left\n") == 0) {
            copy(&block, &fresh);
            run(is_routine, &block);
            print_lanes(&block);
        } else if (sscanf(line, "run %ld", &times) == 1) {
            for (long time = 0; time < times; time++) {
                copy(&block, &fresh);
                run(is_routine, &block);
            }
            printf("%.9f\n", now() - start);
        } else if (sscanf(line, "copy %ld", &times) == 1) {
            for (long time = 0; time < times; time++)
                copy(&block, &fresh);
            printf("%.9f\n", now() - start);
        } else {
            return 1;
        }
        fflush(stdout);
    }
    return 0;
}
