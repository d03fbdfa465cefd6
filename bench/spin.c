/* Weighing against SPIN's search, in one program: pan.c is compiled with its main named pan_main, and each search runs in a
 * child that was forked and not started anew, so that loading a program does not count. Prints one line of JSON.
 *
 *     spin REPS FILE WEIGHTS PAN-OPTIONS..
 */
#define _GNU_SOURCE
#include <fcntl.h>
#include <stdint.h>
#include <stdio.h>
#include <stdlib.h>
#include <sys/wait.h>
#include <time.h>
#include <unistd.h>
#include "hemtaluq.h"

int pan_main(int argc, char **argv);

static double now(void) {
    struct timespec t;
    clock_gettime(CLOCK_MONOTONIC, &t);
    return (double)t.tv_sec * 1e9 + (double)t.tv_nsec;
}

static double begun;
static int ends[2];

static void report(void) {
    double took = now() - begun;
    if (write(ends[1], &took, sizeof took) != sizeof took) _exit(1);
}

static double search(int argc, char **argv) {
    double took = 0;
    int status;
    fflush(stdout);
    pid_t pid = fork();
    if (pid == 0) {
        int null = open("/dev/null", O_WRONLY);
        dup2(null, 1);
        dup2(null, 2);
        atexit(report);
        begun = now();
        exit(pan_main(argc, argv));
    }
    if (read(ends[0], &took, sizeof took) != sizeof took) exit(1);
    waitpid(pid, &status, 0);
    if (!WIFEXITED(status) || WEXITSTATUS(status)) exit(1);
    return took;
}

static int by_size(const void *x, const void *y) {
    double p = *(const double *)x, q = *(const double *)y;
    return (p > q) - (p < q);
}

static size_t load(const char *name, void *data, size_t most) {
    FILE *f = fopen(name, "rb");
    if (!f) exit(1);
    size_t n = fread(data, 1, most, f);
    fclose(f);
    return n;
}

int main(int argc, char **argv) {
    static uint8_t file[8192];
    static uint16_t weights[64], cycle[64];
    double ratio[1001];
    int reps = atoi(argv[1]);
    size_t length = load(argv[2], file, sizeof file), count = load(argv[3], weights, sizeof weights) / 2;
    argv[3] = "pan";
    if (reps > 1001 || pipe(ends)) return 1;
    for (int r = 0; r < reps; r++) {
        double t = now();
        for (int i = 0; i < 500; i++)
            if (hemtaluq_weigh(file, length, weights, count, cycle, 64).kind != HEMTALUQ_PASSED) return 1;
        t = (now() - t) / 500;
        ratio[r] = t / search(argc - 3, argv + 3);
    }
    qsort(ratio, (size_t)reps, sizeof *ratio, by_size);
    printf("{\"ratio\": %.6g, \"low\": %.6g, \"high\": %.6g, \"reps\": %d}\n", ratio[reps / 2], ratio[reps / 4], ratio[reps - 1 - reps / 4], reps);
    return 0;
}
