/* Times updates by the client in C: clients PROGRAM N one|many SIZE. Standard input has the edges of a network, `U V W` each,
 * then a line `-`, and then edges that are set one by one, or so many at once. Prints the seconds of each such lot by the
 * clock. */
#define _POSIX_C_SOURCE 200809L
#include "apsp.h"

#include <stdio.h>
#include <stdlib.h>
#include <string.h>
#include <time.h>

enum { MOST = 100000 };

static struct apsp_edge edges[MOST];

/* The edges up to a line that is none. */
static size_t read_edges(void) {
    size_t count = 0;
    char line[64];
    while (count < MOST && fgets(line, sizeof line, stdin)) {
        struct apsp_edge *edge = &edges[count];
        if (sscanf(line, "%u %u %u", &edge->from, &edge->to, &edge->weight) != 3) {
            break;
        }
        count++;
    }
    return count;
}

static double now(void) {
    struct timespec time;
    clock_gettime(CLOCK_MONOTONIC, &time);
    return (double)time.tv_sec + (double)time.tv_nsec / 1e9;
}

static int set(apsp *network, const struct apsp_edge *lot, size_t count, int many) {
    if (many) {
        return apsp_set_edges(network, lot, count, NULL);
    }
    for (size_t i = 0; i < count; i++) {
        int end = apsp_edge(network, lot[i].from, lot[i].to, lot[i].weight);
        if (end) {
            return end;
        }
    }
    return APSP_OK;
}

int main(int count, char **words) {
    apsp *network = count == 5 ? apsp_open(words[1], (uint32_t)atoi(words[2]), 0) : NULL;
    if (!network || apsp_load(network, edges, read_edges(), NULL)) {
        fputs("usage: clients PROGRAM N one|many SIZE, with edges, a line -, and edges to be timed\n", stderr);
        return 2;
    }
    size_t updates = read_edges(), size = (size_t)atoi(words[4]);
    for (size_t begun = 0; begun < updates; begun += size) {
        double start = now();
        if (set(network, edges + begun, updates - begun < size ? updates - begun : size, words[3][0] == 'm')) {
            return 1;
        }
        printf("%.9f\n", now() - start);
    }
    return apsp_close(network) != 0;
}
