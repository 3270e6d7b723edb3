/* A client of apsp: all shortest paths of a directed graph whose edges change, kept by the program behind two pipes.
 *
 * Vertices are numbers from 0 on, weights 0 to 4294967295, and distances are in the unit of the weights, below 2^42. Each
 * call answers APSP_OK, APSP_NONE where there is no walk or no such path, the code of a refusal (1 to 16, see apsp_name and
 * apsp_expected), which changes nothing, or APSP_ENDED where the program ended, its input is full, a reply did not fit its
 * question or the caller is a forked child, after which apsp_close gives its status. What is answered stands in the places
 * that a call is given with APSP_OK alone, unless it says otherwise.
 *
 * A signal that a handler takes changes nothing, and a ^C at the terminal does not reach the program. A network is one
 * process and serves one thread at a time; two networks may serve two threads. A session takes 16,777,216 bytes of input in
 * all. No call takes memory but those that open a network, apsp_certificate, and those that build and run a block. */
#ifndef APSP_H
#define APSP_H

#include <stddef.h>
#include <stdint.h>

#ifdef __cplusplus
extern "C" {
#endif

enum { APSP_OK = 0, APSP_NONE = -1, APSP_ENDED = -2, APSP_MEMORY = -3 };

/* The codes of refusals. */
enum {
    APSP_NO_VERTICES = 1,
    APSP_VERTICES_TWICE,
    APSP_COMMAND,
    APSP_SHAPE,
    APSP_NUMBER,
    APSP_VERTEX,
    APSP_SELF_EDGE,
    APSP_REPEAT,
    APSP_WEIGHT,
    APSP_TOO_LONG,
    APSP_NEEDS_LIVE,
    APSP_BLOCK_FULL,
    APSP_OPEN_BLOCK,
    APSP_SINCE,
    APSP_NOT_MORE,
    APSP_NOT_SERVED
};

/* The most vertices of a network, and a distance that stands for none in a row. */
#define APSP_MOST_VERTICES 512
#define APSP_NO_WALK UINT64_MAX

typedef struct apsp apsp;
typedef struct apsp_block apsp_block;

struct apsp_item {
    uint32_t vertex;
    uint32_t weight;
};

struct apsp_edge {
    uint32_t from, to;
    uint32_t weight;
};

struct apsp_stats {
    uint64_t updates, steps, paths, historical, formed, removed;
};

/* A network of n vertices without edges, kept by that program. Smoothing forgets the past of a vertex 1, 2, 4, .. updates
 * after it changed. NULL where the program cannot be started, n is refused or memory ran out. */
apsp *apsp_open(const char *program, uint32_t n, int smooth);

/* The same with blocks, whose questions so many readers (1 to 32) answer from so many slots (2 to 64) for versions. */
apsp *apsp_open_live(const char *program, uint32_t n, int smooth, uint32_t readers, uint32_t slots);

/* How many bytes of input the session has room for. */
size_t apsp_bytes_left(const apsp *network);

/* Ends the program and gives its status (1 where a call was refused), or -1 where it did not exit. NULL is let be. */
int apsp_close(apsp *network);

/* Replaces all edges at v by those to the `out` items and from the `in` items. */
int apsp_star(apsp *network, uint32_t v, const struct apsp_item *out, size_t outs, const struct apsp_item *in,
              size_t ins);

/* Sets many edges in their order, one update each; some hundred are sent before their replies are waited for. Refused ones
 * change nothing, and the others are made: the answer is the code of the first refused one, whose place goes into `refused`
 * unless that is NULL. */
int apsp_set_edges(apsp *network, const struct apsp_edge *edges, size_t count, size_t *refused);

/* Replaces the whole graph by these edges: a star for each vertex, n updates, all written before the first reply is waited
 * for. Where an end of an edge is no vertex the answer is APSP_VERTEX, and nothing is sent. A star with an edge from its
 * vertex to itself, a weight out of range or an edge that stands twice is refused, and the others are made: the answer is
 * the code of the first refused one, whose vertex goes into `refused` unless that is NULL. In time of n times `count`. */
int apsp_load(apsp *network, const struct apsp_edge *edges, size_t count, uint32_t *refused);

/* Sets the edge from u to v, or takes it away. */
int apsp_edge(apsp *network, uint32_t u, uint32_t v, uint32_t w);
int apsp_cut(apsp *network, uint32_t u, uint32_t v);

/* Adds vertices without edges, behind those that there are, so that there are n: one update, which keeps all paths.
 * APSP_NOT_MORE where n is not above the present number, and APSP_VERTEX where it is above APSP_MOST_VERTICES. */
int apsp_grow(apsp *network, uint32_t n);

/* The present number of vertices. It asks nothing. */
uint32_t apsp_vertices(const apsp *network);

/* The weight of the least walk from x to y. */
int apsp_dist(apsp *network, uint32_t x, uint32_t y, uint64_t *distance);

/* The least walk: its weight and its vertices, of which there are at most APSP_MOST_VERTICES. */
int apsp_path(apsp *network, uint32_t x, uint32_t y, uint64_t *distance, uint32_t *vertices, size_t *count);

/* The distances from x to 0, 1, .. n - 1, each APSP_NO_WALK where there is no walk; n is apsp_vertices. */
int apsp_row(apsp *network, uint32_t x, uint64_t *distances);

/* How far x reaches: the greatest distance from it, and the number of vertices that a walk from it leads to, itself among
 * them. */
int apsp_eccentricity(apsp *network, uint32_t x, uint64_t *far, uint32_t *reach);

/* The whole network: its diameter, which is the greatest distance that there is; its radius, which is the least far of the
 * vertices that reach all; and its centre, those of them whose far is the radius, of which there are at most
 * APSP_MOST_VERTICES. Where no vertex reaches all: APSP_NONE, the diameter, and a count of 0. */
int apsp_report(apsp *network, uint64_t *diameter, uint64_t *radius, uint32_t *centre, size_t *count);

/* How many pairs of different vertices, both other than v, have v in their least walk. */
int apsp_through(apsp *network, uint32_t v, uint64_t *pairs);

int apsp_stats(apsp *network, struct apsp_stats *stats);

/* The number of the step that added the kept path with these vertices. More than APSP_MOST_VERTICES name none. */
int apsp_age(apsp *network, const uint32_t *vertices, size_t count, uint64_t *birth);

/* The certificate of the present version, as a text that free() takes. */
int apsp_certificate(apsp *network, char **text);

/* Blocks: updates, and questions that are answered while these are made. The lines of a block are collected, and sent by
 * apsp_block_run. NULL or APSP_MEMORY where memory ran out, and then nothing is sent or added. */
apsp_block *apsp_block_new(apsp *network);
int apsp_block_star(apsp_block *block, uint32_t v, const struct apsp_item *out, size_t outs, const struct apsp_item *in,
                    size_t ins);
int apsp_block_edge(apsp_block *block, uint32_t u, uint32_t v, uint32_t w);
int apsp_block_cut(apsp_block *block, uint32_t u, uint32_t v);

/* Asks for the least walk from x to y, from a version with at least the first `since` of the block's updates. The place of
 * the question is the number of those before it. */
int apsp_block_ask(apsp_block *block, uint32_t x, uint32_t y, uint32_t since);

/* Runs the block, once. Refused lines change nothing, and the others count: the answer is the code of the first refused one,
 * whose place among the updates and questions goes into `refused` unless that is NULL. A network that apsp_open made has
 * no blocks: APSP_NEEDS_LIVE, and nothing is sent. Where memory runs out in between the network has ended. */
int apsp_block_run(apsp_block *block, size_t *refused);

/* The answer to the question at place i of a block that has run: the number of updates that its version has, and the least
 * walk there as from apsp_path; with APSP_NONE the number alone. A refused question has the code of its refusal. */
int apsp_block_answer(const apsp_block *block, size_t i, uint64_t *number, uint64_t *distance, uint32_t *vertices,
                      size_t *count);

void apsp_block_free(apsp_block *block);

/* The name of a refusal's code, and what was expected there; "" for any other number. */
const char *apsp_name(int code);
const char *apsp_expected(int code);

#ifdef __cplusplus
}
#endif

#endif
