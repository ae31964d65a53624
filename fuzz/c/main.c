/* fuzz CALLS|SECONDSs SEED: cases of every exported call, one after the other; a line a call with how often each number came, and the digest of all answers.
 * fuzz list: the names of the calls. Ends with status 1 where something does not hold, or where a number that the rules name did not come in ENOUGH cases. */
#include "worker.h"

#include <stdio.h>
#include <stdlib.h>
#include <string.h>
#include <time.h>

enum { ENOUGH = 20000 };

static int list(void) {
    for (size_t i = 0; i < calls_count; i++) printf("%s\n", calls[i].name);
    return 0;
}

/* As many cases as are asked for, or as fit into the seconds. */
static void run(struct worker *w, uint64_t most, int seconds) {
    time_t begin = time(NULL);
    for (uint64_t i = 0; seconds || i < most; i++) {
        if (seconds && i % 64 == 0 && (uint64_t)(time(NULL) - begin) >= most) return;
        worker_case(w, i);
    }
}

int main(int argc, char **argv) {
    struct worker *w;
    char *end;
    uint64_t most;
    int status = 0;
    if (argc == 2 && strcmp(argv[1], "list") == 0) return list();
    if (argc != 3) {
        printf("usage: fuzz CALLS|SECONDSs SEED | list\n");
        return 2;
    }
    most = strtoull(argv[1], &end, 10);
    w = worker_made(strtoull(argv[2], NULL, 10));
    watch(w);
    run(w, most, *end == 's');
    watch(NULL);
    tally_print(&w->tally, 1);
    if (w->tally.cases >= ENOUGH) status = tally_print(&w->tally, 0) > 0;
    printf("fuzz: %llu cases, each called twice, digest %016llx\n", (unsigned long long)w->tally.cases, (unsigned long long)w->tally.digest);
    worker_ended(w);
    return status;
}
