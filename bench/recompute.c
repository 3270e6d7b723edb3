/* Answers dist, row and path of a script as one would without apsp: all pairs are computed anew after each update, or
 * (asked) nothing is, and Dijkstra's algorithm goes from each vertex that dist or row asks of; path it has none.
 *
 *     recompute floyd|dijkstra|asked < SCRIPT
 *
 * A walk's key is its weight times 1024 plus its number of edges, below 2^52, so doubles hold it exactly, and its order
 * is that of weight, then edges. MOST, the most vertices, is a multiple of 8 that the compiler is told: the nearer it is
 * to the script's number, the less is computed for nothing. Among walks of one key the least list is found vertex by vertex. stats counts updates. */
#include <stdint.h>
#include <stdio.h>
#include <stdlib.h>
#include <string.h>

#ifndef MOST
#define MOST 512
#endif
static const double NONE = 1e300;

static int n;
static double edge[MOST][MOST], least[MOST][MOST];
static long updates;

/* Without a branch, so that the compiler makes vector instructions of it. */
static void floyd(void) {
    memcpy(least, edge, sizeof edge);
    for (int v = 0; v < n; v++) {
        least[v][v] = 0;
    }
    for (int k = 0; k < n; k++) {
        for (int x = 0; x < n; x++) {
            double to = least[x][k];
            if (x == k || to >= NONE) {
                continue;
            }
            for (int y = 0; y < MOST; y++) {
                double by = to + least[k][y];
                least[x][y] = by < least[x][y] ? by : least[x][y];
            }
        }
    }
}

struct entry {
    double key;
    int vertex;
};
static struct entry heap[MOST * MOST];
static int held;

static void push(double key, int vertex) {
    int at = held++;
    while (at > 0 && heap[(at - 1) / 2].key > key) {
        heap[at] = heap[(at - 1) / 2];
        at = (at - 1) / 2;
    }
    heap[at] = (struct entry){key, vertex};
}

static struct entry pop(void) {
    struct entry top = heap[0], last = heap[--held];
    int at = 0;
    for (int below = 1; below < held; below = 2 * at + 1) {
        below += below + 1 < held && heap[below + 1].key < heap[below].key;
        if (last.key <= heap[below].key) {
            break;
        }
        heap[at] = heap[below];
        at = below;
    }
    heap[at] = last;
    return top;
}

/* The heads of the edges of each vertex, made anew where one came or went. */
static int to[MOST][MOST], degree[MOST], stale[MOST];

static void list_heads(int u) {
    degree[u] = stale[u] = 0;
    for (int v = 0; v < n; v++) {
        if (edge[u][v] < NONE) {
            to[u][degree[u]++] = v;
        }
    }
}

/* The keys from x to all vertices, or, where `last` is one, to those that are no farther than it. */
static void go_from(int x, int last) {
    for (int y = 0; y < n; y++) {
        least[x][y] = NONE;
    }
    least[x][x] = 0;
    held = 0;
    push(0, x);
    while (held > 0) {
        struct entry top = pop();
        int u = top.vertex;
        if (u == last) {
            return;
        }
        if (top.key > least[x][u]) {
            continue;
        }
        if (stale[u]) {
            list_heads(u);
        }
        for (int i = 0; i < degree[u]; i++) {
            int v = to[u][i];
            double key = top.key + edge[u][v];
            if (key < least[x][v]) {
                least[x][v] = key;
                push(key, v);
            }
        }
    }
}

static void dijkstra(void) {
    for (int x = 0; x < n; x++) {
        go_from(x, -1);
    }
}

static void nothing(void) {}

static void put(int u, int v, double key) {
    stale[u] |= (edge[u][v] < NONE) != (key < NONE);
    edge[u][v] = key;
}

static void set(int u, int v, double weight) { put(u, v, weight * 1024 + 1); }

static void put_distance(int x, int y) {
    if (least[x][y] >= NONE) {
        printf(" none");
    } else {
        printf(" %ld", (long)(least[x][y] / 1024));
    }
}

static void put_walk(int x, int y) {
    printf(" walk %d", x);
    while (x != y) {
        int next = 0;
        while (next == x || least[x][y] != edge[x][next] + least[next][y]) {
            next++;
        }
        printf(" %d", x = next);
    }
}

/* Makes the update that a line stands for, if it is one. */
static int update(char **words, int count) {
    if (strcmp(words[0], "star") == 0) {
        int v = atoi(words[1]), out = 1;
        for (int u = 0; u < n; u++) {
            put(v, u, NONE);
            put(u, v, NONE);
        }
        for (int i = 2; i < count; i++) {
            char *colon = strchr(words[i], ':');
            if (!colon) {
                out = words[i][0] == 'o';
            } else if (out) {
                set(v, atoi(words[i]), atof(colon + 1));
            } else {
                set(atoi(words[i]), v, atof(colon + 1));
            }
        }
    } else if (strcmp(words[0], "edge") == 0) {
        set(atoi(words[1]), atoi(words[2]), atof(words[3]));
    } else if (strcmp(words[0], "cut") == 0) {
        put(atoi(words[1]), atoi(words[2]), NONE);
    } else {
        return 0;
    }
    updates++;
    return 1;
}

static void answer(char **words, void (*compute)(void)) {
    int x = words[1] ? atoi(words[1]) : 0, y = words[1] && words[2] ? atoi(words[2]) : 0;
    if (strcmp(words[0], "vertices") == 0) {
        n = x;
        for (int u = 0; u < MOST; u++) {
            for (int v = 0; v < MOST; v++) {
                edge[u][v] = NONE;
            }
        }
        compute();
    } else if (strcmp(words[0], "row") == 0) {
        if (compute == nothing) {
            go_from(x, -1);
        }
        printf("row %d", x);
        for (y = 0; y < n; y++) {
            put_distance(x, y);
        }
        puts("");
    } else if (strcmp(words[0], "stats") == 0) {
        printf("stats updates %ld steps 0 paths 0 historical 0 formed 0 removed 0\n", updates);
    } else {
        if (compute == nothing) {
            go_from(x, y);
        }
        printf("%s %d %d", words[0], x, y);
        put_distance(x, y);
        if (words[0][0] == 'p' && least[x][y] < NONE) {
            put_walk(x, y);
        }
        puts("");
    }
    fflush(stdout);
}

int main(int count, char **given) {
    void (*compute)(void) = count != 2 || strcmp(given[1], "floyd") == 0 ? floyd
                            : strcmp(given[1], "dijkstra") == 0          ? dijkstra
                                                                         : nothing;
    static char line[65600];
    static char *words[70000];
    while (fgets(line, sizeof line, stdin)) {
        int many = 0;
        for (char *word = strtok(line, " \t\r\n"); word; word = strtok(NULL, " \t\r\n")) {
            words[many++] = word;
        }
        words[many] = words[many + 1] = NULL;
        if (many == 0 || words[0][0] == '#') {
            continue;
        }
        if (update(words, many)) {
            compute();
        } else {
            answer(words, compute);
        }
    }
    return 0;
}
