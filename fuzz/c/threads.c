/* threads CASES SEED: the same cases on one thread, then by four threads at once, a quarter each, then all of them by each of four at once. The digests
 * must be those of the one thread. */
#define _POSIX_C_SOURCE 200809L
#include "worker.h"

#include <pthread.h>
#include <stdio.h>
#include <stdlib.h>

enum { THREADS = 4 };

struct part {
    uint64_t seed, first, step, cases;
    uint64_t digest;
};

static void *run(void *at) {
    struct part *p = at;
    struct worker *w = worker_made(p->seed);
    for (uint64_t i = p->first; i < p->cases; i += p->step) worker_case(w, i);
    p->digest = w->tally.digest;
    worker_ended(w);
    return NULL;
}

static void run_at_once(struct part parts[THREADS]) {
    pthread_t thread[THREADS];
    for (size_t i = 0; i < THREADS; i++)
        if (pthread_create(&thread[i], NULL, run, &parts[i]) != 0) {
            printf("threads: FAILED: no thread\n");
            exit(1);
        }
    for (size_t i = 0; i < THREADS; i++) pthread_join(thread[i], NULL);
}

/* How many of the digests are others than on one thread. */
static int differing(const struct part *a, const struct part *b, const char *what) {
    int count = 0;
    for (size_t i = 0; i < THREADS; i++) {
        if (a[i].digest == b[i].digest) continue;
        printf("threads: FAILED: %s, part %lu: %016llx and not %016llx\n", what, (unsigned long)i, (unsigned long long)b[i].digest,
               (unsigned long long)a[i].digest);
        count++;
    }
    return count;
}

int main(int argc, char **argv) {
    struct part alone[THREADS], split[THREADS], whole[THREADS], all[THREADS];
    uint64_t cases, seed, sum = 0;
    int bad;
    if (argc != 3) {
        printf("usage: threads CASES SEED\n");
        return 2;
    }
    cases = strtoull(argv[1], NULL, 10);
    seed = strtoull(argv[2], NULL, 10);
    for (size_t i = 0; i < THREADS; i++) {
        struct part part = {0, 0, THREADS, 0, 0};
        part.seed = seed;
        part.first = i;
        part.cases = cases;
        alone[i] = split[i] = part;
        part.first = 0;
        part.step = 1;
        whole[i] = all[i] = part;
        run(&alone[i]);
        sum += alone[i].digest;
    }
    for (size_t i = 0; i < THREADS; i++) all[i].digest = sum;
    run_at_once(split);
    run_at_once(whole);
    bad = differing(alone, split, "a quarter each") + differing(all, whole, "all by each");
    printf("threads: %llu cases on one thread, by four a quarter each, and by four all of them, digest %016llx\n", (unsigned long long)cases,
           (unsigned long long)sum);
    return bad > 0;
}
