/* Tests of the client: test_apsp PROGRAM. Prints the tests that fail, and ends with their number. */
#define _GNU_SOURCE
#include "apsp.h"

#include <pthread.h>
#include <signal.h>
#include <stdio.h>
#include <stdlib.h>
#include <string.h>
#include <sys/stat.h>
#include <sys/time.h>
#include <sys/wait.h>
#include <unistd.h>

static int failed;

static void expect(int holds, int line) {
    if (!holds) {
        printf("test_apsp.c:%d: not so\n", line);
        failed++;
    }
}
#define EXPECT(holds) expect(holds, __LINE__)

static void two_stars(const char *program) {
    apsp *network = apsp_open(program, 3, 0);
    EXPECT(network != NULL);
    if (!network) {
        return;
    }
    const struct apsp_item zero[] = {{1, 4}, {2, 9}}, out[] = {{2, 3}}, in[] = {{0, 4}};
    uint64_t distance = 0, birth = 0, row[3];
    uint32_t walk[APSP_MOST_VERTICES];
    size_t count = 0;
    struct apsp_stats stats;
    EXPECT(apsp_star(network, 0, zero, 2, NULL, 0) == APSP_OK);
    EXPECT(apsp_star(network, 1, out, 1, in, 1) == APSP_OK);
    EXPECT(apsp_dist(network, 0, 2, &distance) == APSP_OK && distance == 7);
    EXPECT(apsp_path(network, 0, 2, &distance, walk, &count) == APSP_OK && distance == 7);
    EXPECT(count == 3 && walk[0] == 0 && walk[1] == 1 && walk[2] == 2);
    EXPECT(apsp_path(network, 2, 2, &distance, walk, &count) == APSP_OK && distance == 0 && count == 1 && walk[0] == 2);
    EXPECT(apsp_dist(network, 2, 0, &distance) == APSP_NONE);
    EXPECT(apsp_path(network, 2, 0, &distance, walk, &count) == APSP_NONE);
    EXPECT(apsp_row(network, 1, row) == APSP_OK && row[0] == APSP_NO_WALK && row[1] == 0 && row[2] == 3);
    EXPECT(apsp_stats(network, &stats) == APSP_OK && stats.updates == 2 && stats.steps == 2 && stats.paths == 4);
    EXPECT(stats.historical == 4 && stats.formed == 3 && stats.removed == 1);
    EXPECT(apsp_age(network, (uint32_t[]){0, 2}, 2, &birth) == APSP_OK && birth == 1);
    EXPECT(apsp_age(network, (uint32_t[]){2, 0}, 2, &birth) == APSP_NONE);
    EXPECT(apsp_age(network, (uint32_t[APSP_MOST_VERTICES + 1]){0}, APSP_MOST_VERTICES + 1, &birth) == APSP_NONE);
    EXPECT(apsp_cut(network, 1, 2) == APSP_OK && apsp_dist(network, 0, 2, &distance) == APSP_OK && distance == 9);

    EXPECT(strcmp(apsp_name(apsp_dist(network, 0, 3, &distance)), "Vertex") == 0);
    EXPECT(strcmp(apsp_name(apsp_edge(network, 1, 1, 5)), "SelfEdge") == 0);
    EXPECT(strcmp(apsp_name(apsp_star(network, 0, (struct apsp_item[]){{1, 1}, {1, 2}}, 2, NULL, 0)), "Repeat") == 0);
    EXPECT(apsp_edge(network, 2, 1, 0) == APSP_OK && apsp_dist(network, 2, 1, &distance) == APSP_OK && distance == 0);
    EXPECT(apsp_cut(network, 2, 1) == APSP_OK);
    EXPECT(strcmp(apsp_name(apsp_age(network, NULL, 0, &birth)), "Shape") == 0);
    EXPECT(apsp_dist(network, 0, 1, &distance) == APSP_OK && distance == 4);

    char *text = NULL;
    EXPECT(apsp_certificate(network, &text) == APSP_OK && text);
    EXPECT(text && strncmp(text, "apsp certificate ", 17) == 0 && strstr(text, "\nnumber 5\n"));
    free(text);
    EXPECT(apsp_close(network) == 1);
}

static void grows(const char *program) {
    uint64_t distance = 0, row[APSP_MOST_VERTICES];
    uint32_t walk[APSP_MOST_VERTICES];
    size_t count = 0;
    struct apsp_stats stats;
    struct apsp_edge edges[] = {{0, 1, 1}, {1, 2, 1}, {2, 3, 1}, {3, 0, 1}};
    apsp *network = apsp_open(program, 2, 0);
    EXPECT(network != NULL);
    if (!network) {
        return;
    }
    EXPECT(apsp_vertices(network) == 2 && apsp_edge(network, 0, 1, 5) == APSP_OK);
    EXPECT(apsp_load(network, edges, 4, NULL) == APSP_VERTEX);
    EXPECT(apsp_grow(network, 4) == APSP_OK && apsp_vertices(network) == 4);
    EXPECT(apsp_row(network, 0, row) == APSP_OK && row[0] == 0 && row[1] == 5);
    EXPECT(row[2] == APSP_NO_WALK && row[3] == APSP_NO_WALK);
    EXPECT(apsp_stats(network, &stats) == APSP_OK && stats.updates == 2 && stats.steps == 2 && stats.paths == 1);
    EXPECT(apsp_edge(network, 1, 3, 2) == APSP_OK);
    EXPECT(apsp_path(network, 0, 3, &distance, walk, &count) == APSP_OK && distance == 7 && count == 3 && walk[2] == 3);
    EXPECT(apsp_grow(network, 4) == APSP_NOT_MORE && apsp_grow(network, 3) == APSP_NOT_MORE);
    EXPECT(apsp_grow(network, 0) == APSP_VERTEX && apsp_grow(network, 513) == APSP_VERTEX);
    EXPECT(strcmp(apsp_name(apsp_grow(network, 4)), "NotMore") == 0 && apsp_vertices(network) == 4);
    EXPECT(strcmp(apsp_expected(APSP_NOT_MORE), "a number of vertices above the present one") == 0);
    EXPECT(apsp_load(network, edges, 4, NULL) == APSP_OK);
    EXPECT(apsp_grow(network, APSP_MOST_VERTICES) == APSP_OK && apsp_row(network, 3, row) == APSP_OK);
    EXPECT(row[0] == 1 && row[2] == 3 && row[APSP_MOST_VERTICES - 1] == APSP_NO_WALK);
    EXPECT(apsp_grow(network, APSP_MOST_VERTICES) == APSP_NOT_MORE);
    EXPECT(apsp_close(network) == 1);

    network = apsp_open_live(program, 1, 0, 2, 4);
    EXPECT(apsp_grow(network, 3) == APSP_OK);
    apsp_block *block = apsp_block_new(network);
    EXPECT(apsp_block_edge(block, 0, 2, 6) == APSP_OK && apsp_block_ask(block, 0, 2, 1) == APSP_OK);
    EXPECT(apsp_block_run(block, NULL) == APSP_OK);
    EXPECT(apsp_block_answer(block, 0, &row[0], &distance, walk, &count) == APSP_OK && row[0] == 2 && distance == 6);
    apsp_block_free(block);
    EXPECT(apsp_close(network) == 0);
}

static void reports(const char *program) {
    const struct apsp_item zero[] = {{1, 4}, {2, 9}}, out[] = {{2, 3}}, in[] = {{0, 4}};
    uint64_t diameter = 1, radius = 1, far = 0, pairs = 9;
    uint32_t centre[APSP_MOST_VERTICES], reach = 0;
    size_t count = 9;
    apsp *network = apsp_open(program, 3, 0);
    EXPECT(network != NULL);
    if (!network) {
        return;
    }
    EXPECT(apsp_report(network, &diameter, &radius, centre, &count) == APSP_NONE && diameter == 0 && count == 0);
    EXPECT(apsp_star(network, 0, zero, 2, NULL, 0) == APSP_OK && apsp_star(network, 1, out, 1, in, 1) == APSP_OK);
    EXPECT(apsp_eccentricity(network, 0, &far, &reach) == APSP_OK && far == 7 && reach == 3);
    EXPECT(apsp_eccentricity(network, 2, &far, &reach) == APSP_OK && far == 0 && reach == 1);
    EXPECT(apsp_report(network, &diameter, &radius, centre, &count) == APSP_OK && diameter == 7 && radius == 7);
    EXPECT(count == 1 && centre[0] == 0);
    EXPECT(apsp_through(network, 1, &pairs) == APSP_OK && pairs == 1);
    EXPECT(apsp_through(network, 2, &pairs) == APSP_OK && pairs == 0);
    EXPECT(apsp_through(network, 3, &pairs) == APSP_VERTEX && apsp_eccentricity(network, 3, &far, &reach) == APSP_VERTEX);
    /* A ring of four, whose vertices are all in its centre. */
    const struct apsp_edge edges[] = {{0, 1, 1}, {1, 2, 1}, {2, 3, 1}, {3, 0, 1}};
    EXPECT(apsp_grow(network, 4) == APSP_OK && apsp_load(network, edges, 4, NULL) == APSP_OK);
    EXPECT(apsp_report(network, &diameter, &radius, centre, &count) == APSP_OK && diameter == 3 && radius == 3);
    EXPECT(count == 4 && centre[0] == 0 && centre[3] == 3);
    EXPECT(apsp_through(network, 1, &pairs) == APSP_OK && pairs == 3);
    EXPECT(apsp_close(network) == 1);
}

/* Replies that do not fit what was asked end the network, and none becomes an answer. */
static const char CANNED[] = "#!/bin/sh\nwhile read -r line; do case $line in 'dist 0 0') echo 'dist 0 0 0' ;; vertices*) ;; "
                             "*) echo '%s' ;; esac; done\n";

static int asked_of(const char *program, const char *reply, int question) {
    uint64_t one, two, row[APSP_MOST_VERTICES];
    uint32_t list[APSP_MOST_VERTICES];
    size_t count;
    struct apsp_stats stats;
    FILE *script = fopen(program, "w");
    if (!script) {
        return APSP_MEMORY;
    }
    fprintf(script, CANNED, reply);
    fclose(script);
    apsp *network = apsp_open(program, 3, 0);
    int end = APSP_MEMORY;
    for (int again = 0; network && again < 2; again++) {
        int before = end;
        end = question == 0   ? apsp_eccentricity(network, 1, &one, list)
              : question == 1 ? apsp_report(network, &one, &two, list, &count)
              : question == 2 ? apsp_through(network, 2, &one)
              : question == 3 ? apsp_dist(network, 0, 1, &one)
              : question == 4 ? apsp_path(network, 0, 2, &one, list, &count)
              : question == 5 ? apsp_row(network, 0, row)
              : question == 6 ? apsp_stats(network, &stats)
                              : apsp_age(network, (uint32_t[]){0, 1}, 2, &one);
        EXPECT(again == 0 || end == before);
    }
    EXPECT(!network || end != APSP_ENDED || apsp_dist(network, 0, 0, &one) == APSP_ENDED);
    apsp_close(network);
    return end;
}

static void replies(void) {
    static const struct {
        int question, answer;
        const char *reply;
    } tried[] = {
        {0, APSP_OK, "ecc 1 far 7 reach 3"},
        {0, APSP_ENDED, "ecc 0 far 7 reach 3"},
        {0, APSP_ENDED, "ecc 1 far 7"},
        {0, APSP_ENDED, "ecc 1 far 7 reach"},
        {0, APSP_ENDED, "ecc 1 far x reach 3"},
        {0, APSP_ENDED, "ecc 1 reach 3 far 7"},
        {0, APSP_ENDED, "ecc 1 far 7 reach 3 4"},
        {0, APSP_ENDED, "ecc 1 far none reach 3"},
        {0, APSP_ENDED, "ecc 1 far 7 reach 4"},
        {0, APSP_ENDED, "ecc 11 far 7 reach 3"},
        {0, APSP_ENDED, "line 9 error 6 at 2"},
        {0, APSP_ENDED, "line 3 error six at 2"},
        {0, APSP_ENDED, ""},
        {1, APSP_OK, "report diameter 7 radius 7 centre 0 2"},
        {1, APSP_NONE, "report diameter 7 radius none"},
        {1, APSP_ENDED, "report diameter 7"},
        {1, APSP_ENDED, "report"},
        {1, APSP_ENDED, "report diameter 7 radius 7"},
        {1, APSP_ENDED, "report diameter 7 radius 7 centre"},
        {1, APSP_ENDED, "report diameter 7 radius 7 centre 3"},
        {1, APSP_ENDED, "report diameter 7 radius 7 centre 0 0 0 0 x"},
        {1, APSP_ENDED, "report diameter none radius none"},
        {1, APSP_ENDED, "report diameter 7 radius none centre 0"},
        {1, APSP_ENDED, "report radius 7 diameter 7 centre 0"},
        {1, APSP_ENDED, "reports diameter 7 radius none"},
        {2, APSP_OK, "through 2 pairs 0"},
        {2, APSP_ENDED, "through 1 pairs 0"},
        {2, APSP_ENDED, "through 2 pairs"},
        {2, APSP_ENDED, "through 2 0"},
        {2, APSP_ENDED, "through 2 pairs none"},
        {2, APSP_ENDED, "through 2 pairs 0 1"},
        {3, APSP_OK, "dist 0 1 5"},
        {3, APSP_NONE, "dist 0 1 none"},
        {3, APSP_ENDED, "dist 1 0 5"},
        {3, APSP_ENDED, "dist 0 1"},
        {3, APSP_ENDED, "dist 0 1 x"},
        {3, APSP_ENDED, "dist 0 1 5 5"},
        {4, APSP_OK, "path 0 2 5 walk 0 1 2"},
        {4, APSP_NONE, "path 0 2 none"},
        {4, APSP_ENDED, "path 0 2 5"},
        {4, APSP_ENDED, "path 0 2 5 walk"},
        {4, APSP_ENDED, "path 0 2 5 walk 0 1"},
        {4, APSP_ENDED, "path 0 2 5 walk 1 2"},
        {4, APSP_ENDED, "path 0 2 5 walk 0 3 2"},
        {4, APSP_ENDED, "path 0 2 none walk 0 2"},
        {5, APSP_OK, "row 0 0 5 none"},
        {5, APSP_ENDED, "row 0 0 5"},
        {5, APSP_ENDED, "row 0 0 5 none none"},
        {5, APSP_ENDED, "row 0 0 5 x"},
        {6, APSP_OK, "stats updates 1 steps 2 paths 3 historical 4 formed 5 removed 6"},
        {6, APSP_ENDED, "stats updates 1 steps 2"},
        {6, APSP_ENDED, "stats updates 1 paths 3 shortest 3"},
        {7, APSP_OK, "age 0 1 birth 3"},
        {7, APSP_NONE, "age 0 1 none"},
        {7, APSP_ENDED, "age 0 1"},
        {7, APSP_ENDED, "age 0 1 2 birth 3"},
    };
    char folder[] = "/tmp/apsp-test-XXXXXX", program[64];
    EXPECT(mkdtemp(folder) != NULL);
    snprintf(program, sizeof program, "%s/canned", folder);
    FILE *script = fopen(program, "w");
    EXPECT(script && fclose(script) == 0 && chmod(program, 0755) == 0);
    for (size_t i = 0; i < sizeof tried / sizeof *tried; i++) {
        int end = asked_of(program, tried[i].reply, tried[i].question);
        if (end != tried[i].answer) {
            printf("test_apsp.c: '%s' answers %d\n", tried[i].reply, end);
            failed++;
        }
    }
    unlink(program);
    rmdir(folder);
}

static void smoothing(const char *program) {
    apsp *network = apsp_open(program, 2, 1);
    struct apsp_stats stats;
    EXPECT(network != NULL);
    if (!network) {
        return;
    }
    EXPECT(apsp_edge(network, 0, 1, 5) == APSP_OK && apsp_edge(network, 1, 0, 5) == APSP_OK);
    EXPECT(apsp_stats(network, &stats) == APSP_OK && stats.updates == 2 && stats.steps == 3);
    EXPECT(apsp_close(network) == 0);
}

/* A ring of all vertices that there may be whose edges are set one after another, in both directions. */
static void ring(const char *program) {
    apsp *network = apsp_open(program, APSP_MOST_VERTICES, 0);
    EXPECT(network != NULL);
    if (!network) {
        return;
    }
    struct apsp_item all[APSP_MOST_VERTICES - 1];
    uint64_t row[APSP_MOST_VERTICES], distance;
    for (uint32_t u = 1; u < APSP_MOST_VERTICES; u++) {
        all[u - 1] = (struct apsp_item){u, UINT32_MAX};
    }
    EXPECT(apsp_star(network, 0, all, APSP_MOST_VERTICES - 1, all, APSP_MOST_VERTICES - 1) == APSP_OK);
    EXPECT(apsp_dist(network, 1, 2, &distance) == APSP_OK && distance == 2 * (uint64_t)UINT32_MAX);
    for (uint32_t u = 0; u < APSP_MOST_VERTICES; u++) {
        EXPECT(apsp_edge(network, u, (u + 1) % APSP_MOST_VERTICES, 1) == APSP_OK);
        EXPECT(apsp_edge(network, (u + 1) % APSP_MOST_VERTICES, u, 1) == APSP_OK);
    }
    EXPECT(apsp_row(network, 5, row) == APSP_OK && row[0] == 5 && row[69] == 64 && row[APSP_MOST_VERTICES - 1] == 6);
    EXPECT(apsp_close(network) == 0);
}

static void many_edges(const char *program) {
    enum { COUNT = 1000 };
    apsp *network = apsp_open(program, 40, 0);
    struct apsp_edge edges[COUNT];
    size_t refused = 0;
    uint64_t distance;
    struct apsp_stats stats;
    for (uint32_t i = 0; i < COUNT; i++) {
        edges[i] = (struct apsp_edge){i % 39, i % 39 + 1, i};
    }
    EXPECT(apsp_set_edges(network, edges, COUNT, NULL) == APSP_OK);
    EXPECT(apsp_dist(network, 0, 1, &distance) == APSP_OK && distance == 975);
    edges[700].to = edges[700].from;
    edges[900].to = 40;
    EXPECT(strcmp(apsp_name(apsp_set_edges(network, edges, COUNT, &refused)), "SelfEdge") == 0 && refused == 700);
    EXPECT(apsp_stats(network, &stats) == APSP_OK && stats.updates == 2 * COUNT - 2);
    EXPECT(apsp_close(network) == 1);
}

static void loads(const char *program) {
    enum { N = 90 };
    static struct apsp_edge edges[N * (N - 1)];
    size_t count = 0;
    uint32_t refused = 0;
    uint64_t row[N];
    struct apsp_stats stats;
    for (uint32_t u = 0; u < N; u++) {
        for (uint32_t v = 0; v < N; v++) {
            if (u != v) {
                edges[count++] = (struct apsp_edge){u, v, u < v ? v - u : 100000};
            }
        }
    }
    apsp *network = apsp_open(program, N, 0);
    EXPECT(apsp_load(network, edges, count, NULL) == APSP_OK);
    EXPECT(apsp_row(network, 0, row) == APSP_OK && row[1] == 1 && row[N - 1] == N - 1);
    EXPECT(apsp_row(network, 5, row) == APSP_OK && row[0] == 100000 && row[N - 1] == N - 6);
    EXPECT(apsp_stats(network, &stats) == APSP_OK && stats.updates == N);
    EXPECT(apsp_load(network, edges, 3, NULL) == APSP_OK);
    EXPECT(apsp_row(network, 0, row) == APSP_OK && row[3] == 3 && row[4] == APSP_NO_WALK);
    edges[1] = edges[0];
    EXPECT(apsp_load(network, edges, 3, &refused) == APSP_REPEAT && refused == 0);
    edges[1].to = N;
    EXPECT(apsp_load(network, edges, 3, &refused) == APSP_VERTEX);
    EXPECT(apsp_bytes_left(network) > 0 && apsp_bytes_left(network) < 16777216);
    EXPECT(apsp_close(network) == 1);
}

static void blocks(const char *program) {
    enum { MANY = 20000 };
    uint64_t number = 0, distance = 0;
    uint32_t walk[APSP_MOST_VERTICES];
    size_t count = 0, refused = 9;
    apsp *network = apsp_open_live(program, 3, 0, 2, 4);
    EXPECT(network && apsp_edge(network, 0, 1, 5) == APSP_OK);
    apsp_block *block = apsp_block_new(network);
    EXPECT(apsp_block_edge(block, 1, 2, 6) == APSP_OK && apsp_block_ask(block, 0, 2, 1) == APSP_OK);
    EXPECT(apsp_block_ask(block, 2, 0, 0) == APSP_OK);
    EXPECT(apsp_block_answer(block, 0, &number, &distance, walk, &count) == APSP_ENDED);
    EXPECT(apsp_block_run(block, &refused) == APSP_OK && refused == 9);
    EXPECT(apsp_block_answer(block, 0, &number, &distance, walk, &count) == APSP_OK && number == 2 && distance == 11);
    EXPECT(count == 3 && walk[0] == 0 && walk[1] == 1 && walk[2] == 2);
    EXPECT(apsp_block_answer(block, 1, &number, &distance, walk, &count) == APSP_NONE && number >= 1 && number <= 2);
    EXPECT(apsp_block_answer(block, 2, &number, &distance, walk, &count) == APSP_ENDED);
    EXPECT(apsp_block_run(block, NULL) == APSP_ENDED);
    EXPECT(apsp_block_cut(block, 0, 1) == APSP_ENDED);
    apsp_block_free(block);

    block = apsp_block_new(network);
    EXPECT(apsp_block_star(block, 0, NULL, 0, NULL, 0) == APSP_OK && apsp_block_ask(block, 0, 1, 2) == APSP_OK);
    EXPECT(apsp_block_edge(block, 1, 1, 6) == APSP_OK && apsp_block_ask(block, 0, 1, 1) == APSP_OK);
    EXPECT(apsp_block_run(block, &refused) == APSP_SINCE && refused == 1);
    EXPECT(apsp_block_answer(block, 0, &number, &distance, walk, &count) == APSP_SINCE);
    EXPECT(apsp_block_answer(block, 1, &number, &distance, walk, &count) == APSP_NONE && number == 3);
    apsp_block_free(block);

    /* More refusals, and more answers, than a pipe has room for. */
    block = apsp_block_new(network);
    for (uint32_t i = 0; i < MANY; i++) {
        EXPECT(apsp_block_edge(block, 0, 7, 1) == APSP_OK && apsp_block_ask(block, 1, 2, 0) == APSP_OK);
    }
    EXPECT(apsp_block_run(block, &refused) == APSP_VERTEX && refused == 0);
    for (size_t i = 0; i < MANY; i++) {
        EXPECT(apsp_block_answer(block, i, &number, &distance, walk, &count) == APSP_OK && number == 3 && distance == 6);
    }
    apsp_block_free(block);
    EXPECT(apsp_dist(network, 1, 2, &distance) == APSP_OK && distance == 6);
    EXPECT(apsp_close(network) == 1);

    network = apsp_open(program, 2, 0);
    block = apsp_block_new(network);
    EXPECT(apsp_block_edge(block, 0, 1, 5) == APSP_OK && apsp_block_run(block, NULL) == APSP_NEEDS_LIVE);
    apsp_block_free(block);
    apsp_block_free(NULL);
    EXPECT(apsp_dist(network, 0, 1, &distance) == APSP_NONE);
    EXPECT(apsp_close(network) == 0);
    EXPECT(apsp_open_live(program, 2, 0, 0, 4) == NULL);
}

/* Two networks serve two threads. */
static void *counts_on(void *network) {
    uint64_t distance;
    long wrong = 0;
    for (uint32_t i = 0; i < 500; i++) {
        wrong += apsp_edge(network, 0, 1, i) != APSP_OK;
        wrong += apsp_dist(network, 0, 1, &distance) != APSP_OK || distance != i;
    }
    return (void *)wrong;
}

static void threads(const char *program) {
    pthread_t other;
    void *wrong = NULL;
    apsp *one = apsp_open(program, 2, 0), *two = apsp_open(program, 2, 0);
    EXPECT(one && two && pthread_create(&other, NULL, counts_on, two) == 0);
    EXPECT(counts_on(one) == NULL);
    EXPECT(pthread_join(other, &wrong) == 0 && wrong == NULL);
    EXPECT(apsp_close(one) == 0 && apsp_close(two) == 0);
}

static volatile sig_atomic_t rung;

static void ring_once(int number) {
    (void)number;
    rung++;
}

/* Signals whose handlers return come in between reads and writes, and change no answer. */
static void signals(const char *program) {
    apsp *network = apsp_open(program, 3, 0);
    struct sigaction action = {.sa_handler = ring_once};
    const struct itimerval often = {{0, 50}, {0, 50}}, never = {{0, 0}, {0, 0}};
    uint64_t distance = 0;
    int wrong = 0;
    EXPECT(apsp_edge(network, 0, 1, 5) == APSP_OK && apsp_edge(network, 1, 2, 6) == APSP_OK);
    sigaction(SIGALRM, &action, NULL);
    setitimer(ITIMER_REAL, &often, NULL);
    for (int i = 0; i < 5000; i++) {
        wrong += apsp_dist(network, 0, 1, &distance) != APSP_OK || distance != 5;
        wrong += apsp_dist(network, 1, 2, &distance) != APSP_OK || distance != 6;
    }
    setitimer(ITIMER_REAL, &never, NULL);
    /* A late one is not to end the test. */
    signal(SIGALRM, SIG_IGN);
    EXPECT(wrong == 0 && rung > 0);
    EXPECT(apsp_close(network) == 0);
}

/* A ^C goes to all processes of the terminal's group, of which the program is none. */
static void interrupts(const char *program) {
    int status = 1;
    pid_t child = fork();
    if (child == 0) {
        uint64_t distance = 0;
        setpgid(0, 0);
        signal(SIGINT, ring_once);
        rung = 0;
        apsp *network = apsp_open(program, 2, 0);
        int wrong = apsp_edge(network, 0, 1, 5) != APSP_OK;
        kill(0, SIGINT);
        wrong |= apsp_dist(network, 0, 1, &distance) != APSP_OK || distance != 5 || rung != 1;
        wrong |= apsp_close(network) != 0;
        _exit(wrong);
    }
    EXPECT(waitpid(child, &status, 0) == child && WIFEXITED(status) && WEXITSTATUS(status) == 0);
}

/* A forked child gets no answer, and does not keep the program from its end. */
static void forks(const char *program) {
    apsp *network = apsp_open(program, 3, 0);
    uint64_t distance;
    EXPECT(apsp_edge(network, 0, 1, 5) == APSP_OK);
    pid_t child = fork();
    if (child == 0) {
        int end = apsp_dist(network, 0, 1, &distance);
        pause();
        _exit(end != APSP_ENDED);
    }
    EXPECT(apsp_dist(network, 0, 1, &distance) == APSP_OK && distance == 5);
    /* An end that does not come would be an end by this signal, on however slow a machine. */
    signal(SIGALRM, SIG_DFL);
    alarm(300);
    EXPECT(apsp_close(network) == 0);
    alarm(0);
    kill(child, SIGKILL);
    waitpid(child, NULL, 0);
}

int main(int count, char **words) {
    if (count != 2) {
        fputs("usage: test_apsp PROGRAM\n", stderr);
        return 2;
    }
    two_stars(words[1]);
    grows(words[1]);
    reports(words[1]);
    replies();
    smoothing(words[1]);
    ring(words[1]);
    many_edges(words[1]);
    loads(words[1]);
    blocks(words[1]);
    threads(words[1]);
    signals(words[1]);
    interrupts(words[1]);
    forks(words[1]);
    EXPECT(strcmp(apsp_name(APSP_NOT_SERVED), "NotServed") == 0 && *apsp_expected(APSP_NOT_SERVED));
    EXPECT(*apsp_name(0) == 0 && *apsp_name(17) == 0 && *apsp_expected(-1) == 0);
    EXPECT(apsp_close(NULL) == -1);
    EXPECT(apsp_open(words[1], 513, 0) == NULL);
    EXPECT(apsp_open("/nonexistent", 3, 0) == NULL);
    return failed > 100 ? 100 : failed;
}
