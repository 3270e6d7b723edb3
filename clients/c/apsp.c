#ifndef _GNU_SOURCE
#define _GNU_SOURCE
#endif
#include "apsp.h"

#include <errno.h>
#include <fcntl.h>
#include <inttypes.h>
#include <poll.h>
#include <stdarg.h>
#include <stdio.h>
#include <stdlib.h>
#include <string.h>
#include <sys/socket.h>
#include <sys/wait.h>
#include <unistd.h>

/* Room for each line and each reply: at most so many items "4294967295:4294967295 " in each of two groups. At most so many
 * edges are sent before their replies are read, so that refusals always find room in a pipe. */
enum { ROOM = 2 * APSP_MOST_VERTICES * 23 + 64, MOST_INPUT = 16777216, AT_ONCE = 256 };

struct apsp {
    pid_t child, owner;
    int to, from;
    uint32_t vertices;
    int live;
    /* Whether the latest exchange came to its end: else the network has ended, so that no later call takes its reply. */
    int whole;
    size_t sent;
    uint64_t lines;
    size_t length;
    char line[ROOM];
    char reply[ROOM];
    /* What was read and not taken yet. */
    size_t begun, end;
    char read[4096];
};

static const struct {
    const char *name, *expected;
} CODES[] = {
    {"", ""},
    {"NoVertices", "a number of vertices before it"},
    {"VerticesTwice", "no second number of vertices"},
    {"Command", "a command of the program"},
    {"Shape", "the form of the command"},
    {"Number", "a whole number from 0 on, of at most 19 digits"},
    {"Vertex", "a vertex below the number of vertices, which is 1 to 512"},
    {"SelfEdge", "an edge between two different vertices"},
    {"Repeat", "each edge once"},
    {"Weight", "a weight from 0 to 4294967295"},
    {"TooLong", "at most 65,536 bytes"},
    {"NeedsLive", "a network that apsp_open_live made"},
    {"BlockFull", "at most 65,536 updates and as many questions in a block"},
    {"OpenBlock", "star, edge, cut or ask in a block"},
    {"Since", "no more updates than stand before it in its block"},
    {"NotMore", "a number of vertices above the present one"},
    {"NotServed", "a command that the program serves in this mode"},
};

static int is_code(int code) {
    return code > 0 && (size_t)code < sizeof CODES / sizeof *CODES;
}

const char *apsp_name(int code) {
    return is_code(code) ? CODES[code].name : "";
}

const char *apsp_expected(int code) {
    return is_code(code) ? CODES[code].expected : "";
}

static int ended(apsp *network) {
    network->whole = 0;
    return APSP_ENDED;
}

/* Whether an exchange with so many bytes may begin. It is not whole from then on. */
static int begins(apsp *network, size_t bytes) {
    if (!network->whole || network->owner != getpid() || bytes > MOST_INPUT - network->sent) {
        return 0;
    }
    network->whole = 0;
    network->sent += bytes;
    return 1;
}

/* Sends what the line has. A signal that comes in between changes nothing. */
static int send_line(apsp *network) {
    const char *rest = network->line;
    size_t left = network->length;
    network->length = 0;
    if (!begins(network, left)) {
        return APSP_ENDED;
    }
    while (left > 0) {
        ssize_t written = send(network->to, rest, left, MSG_NOSIGNAL);
        if (written < 0 && errno == EINTR) {
            continue;
        }
        if (written <= 0) {
            return APSP_ENDED;
        }
        for (ssize_t i = 0; i < written; i++) {
            network->lines += rest[i] == '\n';
        }
        rest += written;
        left -= (size_t)written;
    }
    return APSP_OK;
}

/* Reads a line into `reply`. */
static int read_line(apsp *network) {
    size_t length = 0;
    for (;;) {
        while (network->begun < network->end) {
            char byte = network->read[network->begun++];
            if (length + 2 > ROOM) {
                return ended(network);
            }
            network->reply[length++] = byte;
            if (byte == '\n') {
                network->reply[length] = 0;
                return APSP_OK;
            }
        }
        ssize_t taken = read(network->from, network->read, sizeof network->read);
        if (taken < 0 && errno == EINTR) {
            continue;
        }
        if (taken <= 0) {
            return ended(network);
        }
        network->begun = 0;
        network->end = (size_t)taken;
    }
}

/* The code of the refusal that a reply is, and the number of its line; 0 where it is none. */
static int refusal(const char *reply, uint64_t *line) {
    char *behind;
    if (strncmp(reply, "line ", 5) != 0) {
        return APSP_OK;
    }
    *line = strtoull(reply + 5, &behind, 10);
    if (strncmp(behind, " error ", 7) != 0) {
        return APSP_OK;
    }
    int code = (int)strtoul(behind + 7, &behind, 10);
    return code > 0 && strncmp(behind, " at ", 4) == 0 ? code : APSP_OK;
}

/* Asks what the line has, and leaves the reply, which has to begin as the question does. */
static int ask(apsp *network) {
    char front[64];
    size_t length = 0;
    uint64_t line;
    while (length < sizeof front - 1 && network->line[length] && network->line[length] != '\n') {
        front[length] = network->line[length];
        length++;
    }
    front[length] = 0;
    int end = send_line(network);
    if (end || (end = read_line(network))) {
        return end;
    }
    int code = refusal(network->reply, &line);
    int whole_word = length == sizeof front - 1 || network->reply[length] == ' ';
    int fits = code ? line == network->lines : strncmp(network->reply, front, length) == 0 && whole_word;
    if (strcmp(front, "cert") == 0 && !code) {
        fits = strncmp(network->reply, "apsp certificate", 16) == 0;
    }
    if (!fits) {
        return ended(network);
    }
    network->whole = 1;
    return code;
}

/* Reads the refusals of the lines since `before`, behind which a question was sent, up to its reply. */
static int read_refusals(apsp *network, uint64_t before, uint64_t *refused) {
    uint64_t line;
    int first = APSP_OK, end;
    for (;;) {
        if ((end = read_line(network))) {
            return end;
        }
        int code = refusal(network->reply, &line);
        if (!code && strcmp(network->reply, "dist 0 0 0\n") != 0) {
            return ended(network);
        }
        if (code && (line <= before || line > network->lines)) {
            return ended(network);
        }
        if (!code || line == network->lines) {
            network->whole = 1;
            return first;
        }
        if (!first) {
            first = code;
            *refused = line - before - 1;
        }
    }
}

/* Sends updates. An accepted update has no reply, so a question goes behind them. The answer is the code of the first that
 * was refused, whose place among these lines it leaves. */
static int update_many(apsp *network, uint64_t *refused) {
    uint64_t before = network->lines;
    network->length += (size_t)snprintf(network->line + network->length, ROOM - network->length, "dist 0 0\n");
    int end = send_line(network);
    return end ? end : read_refusals(network, before, refused);
}

static int update(apsp *network) {
    uint64_t refused;
    return update_many(network, &refused);
}

__attribute__((format(printf, 2, 3))) static void put(apsp *network, const char *format, ...) {
    va_list values;
    va_start(values, format);
    network->length += (size_t)vsnprintf(network->line + network->length, ROOM - network->length, format, values);
    va_end(values);
}

static char *skip_words(char *place, int count) {
    while (count-- > 0) {
        place += strcspn(place, " \n");
        place += *place == ' ';
    }
    return place;
}

/* Whether this word stands at the place, which then moves behind it. */
static int take_word(char **place, const char *word) {
    size_t length = strlen(word);
    if (strncmp(*place, word, length) != 0 || ((*place)[length] != ' ' && (*place)[length] != '\n')) {
        return 0;
    }
    *place += length + ((*place)[length] == ' ');
    return 1;
}

/* The number at the place, which moves behind it; APSP_NONE where the word none stands there, and APSP_ENDED where there is
 * neither. */
static int take_number(char **place, uint64_t *number) {
    char *behind;
    if (take_word(place, "none")) {
        return APSP_NONE;
    }
    if (**place < '0' || **place > '9') {
        return APSP_ENDED;
    }
    uint64_t found = strtoull(*place, &behind, 10);
    if (*behind != ' ' && *behind != '\n') {
        return APSP_ENDED;
    }
    *place = behind + (*behind == ' ');
    *number = found;
    return APSP_OK;
}

/* The number behind this word. */
static int take_named(char **place, const char *word, uint64_t *number) {
    return take_word(place, word) && take_number(place, number) == APSP_OK ? APSP_OK : APSP_ENDED;
}

/* The vertices from the place to the end of the line, of which there are `n`, into an array unless that is NULL. */
static int take_vertices(char **place, uint32_t n, uint32_t *vertices, size_t *count) {
    *count = 0;
    while (**place != '\n') {
        uint64_t v;
        if (take_number(place, &v) || v >= n || *count == APSP_MOST_VERTICES) {
            return APSP_ENDED;
        }
        if (vertices) {
            vertices[*count] = (uint32_t)v;
        }
        ++*count;
    }
    return *count > 0 ? APSP_OK : APSP_ENDED;
}

/* A walk, which stands behind its weight, or APSP_NONE. */
static int take_walk(char **place, uint32_t n, uint64_t *distance, uint32_t *vertices, size_t *count) {
    int end = take_number(place, distance);
    if (end) {
        return end;
    }
    return take_word(place, "walk") ? take_vertices(place, n, vertices, count) : APSP_ENDED;
}

/* The answer of a call whose reply was taken up to this place. A reply that goes on there, or that did not fit its question
 * before, ends the network. */
static int answered(apsp *network, int answer, const char *place) {
    return answer == APSP_ENDED || strcmp(place, "\n") != 0 ? ended(network) : answer;
}

static void in_child(const char *program, char **words, int to, int from) {
    /* In a session of its own, so that a ^C at the terminal reaches the caller alone. */
    setsid();
    if (dup2(to, 0) == 0 && dup2(from, 1) == 1) {
        execvp(program, words);
    }
    _exit(127);
}

static void shut(apsp *network) {
    /* The program sees its end although a forked child may have a copy of the socket. */
    if (network->owner == getpid()) {
        shutdown(network->to, SHUT_RDWR);
    }
    close(network->to);
    close(network->from);
}

static apsp *open_with(const char *program, char **words, uint32_t n) {
    int to[2], from[2];
    apsp *network = calloc(1, sizeof *network);
    if (!network || socketpair(AF_UNIX, SOCK_STREAM | SOCK_CLOEXEC, 0, to)) {
        free(network);
        return NULL;
    }
    if (pipe2(from, O_CLOEXEC)) {
        close(to[0]);
        close(to[1]);
        free(network);
        return NULL;
    }
    network->vertices = n;
    network->whole = 1;
    network->owner = getpid();
    network->to = to[1];
    network->from = from[0];
    network->child = fork();
    if (network->child == 0) {
        in_child(program, words, to[0], from[1]);
    }
    close(to[0]);
    close(from[1]);
    put(network, "vertices %" PRIu32 "\n", n);
    if (network->child < 0 || update(network)) {
        apsp_close(network);
        return NULL;
    }
    return network;
}

apsp *apsp_open(const char *program, uint32_t n, int smooth) {
    char *words[] = {(char *)program, "run", smooth ? "--smooth" : NULL, NULL};
    return open_with(program, words, n);
}

apsp *apsp_open_live(const char *program, uint32_t n, int smooth, uint32_t readers, uint32_t slots) {
    char of_readers[16], of_slots[16];
    char *words[] = {(char *)program, "live",   "--readers", of_readers,
                     "--slots",       of_slots, smooth ? "--smooth" : NULL, NULL};
    snprintf(of_readers, sizeof of_readers, "%" PRIu32, readers);
    snprintf(of_slots, sizeof of_slots, "%" PRIu32, slots);
    apsp *network = open_with(program, words, n);
    if (network) {
        network->live = 1;
    }
    return network;
}

size_t apsp_bytes_left(const apsp *network) {
    return MOST_INPUT - network->sent;
}

int apsp_close(apsp *network) {
    int status = 0, ended = -1;
    if (!network) {
        return -1;
    }
    shut(network);
    if (network->child > 0 && network->owner == getpid()) {
        while ((ended = waitpid(network->child, &status, 0)) < 0 && errno == EINTR) {
        }
    }
    free(network);
    return ended > 0 && WIFEXITED(status) ? WEXITSTATUS(status) : -1;
}

/* As many items as there may be vertices are enough to be refused: one of them repeats, or names what is no neighbour. */
static void put_group(apsp *network, const char *word, const struct apsp_item *items, size_t count) {
    if (count > 0) {
        put(network, " %s", word);
    }
    for (size_t i = 0; i < count && i < APSP_MOST_VERTICES; i++) {
        put(network, " %" PRIu32 ":%" PRIu32, items[i].vertex, items[i].weight);
    }
}

int apsp_star(apsp *network, uint32_t v, const struct apsp_item *out, size_t outs, const struct apsp_item *in,
              size_t ins) {
    put(network, "star %" PRIu32, v);
    put_group(network, "out", out, outs);
    put_group(network, "in", in, ins);
    put(network, "\n");
    return update(network);
}

int apsp_edge(apsp *network, uint32_t u, uint32_t v, uint32_t w) {
    put(network, "edge %" PRIu32 " %" PRIu32 " %" PRIu32 "\n", u, v, w);
    return update(network);
}

int apsp_set_edges(apsp *network, const struct apsp_edge *edges, size_t count, size_t *refused) {
    int first = APSP_OK;
    for (size_t begun = 0; begun < count;) {
        size_t end = count - begun < AT_ONCE ? count : begun + AT_ONCE;
        for (size_t i = begun; i < end; i++) {
            put(network, "edge %" PRIu32 " %" PRIu32 " %" PRIu32 "\n", edges[i].from, edges[i].to, edges[i].weight);
        }
        uint64_t place = 0;
        int code = update_many(network, &place);
        if (code == APSP_ENDED) {
            return code;
        }
        if (code && !first) {
            first = code;
            if (refused) {
                *refused = begun + (size_t)place;
            }
        }
        begun = end;
    }
    return first;
}

/* Puts the edges of a list that lead out of a vertex, or into it: those that are more than there may be repeat. */
static void put_edges_at(apsp *network, const char *word, const struct apsp_edge *edges, size_t count, uint32_t v) {
    int is_out = strcmp(word, "out") == 0;
    for (size_t i = 0, found = 0; i < count && found < APSP_MOST_VERTICES; i++) {
        if (v == (is_out ? edges[i].from : edges[i].to)) {
            if (found++ == 0) {
                put(network, " %s", word);
            }
            put(network, " %" PRIu32 ":%" PRIu32, is_out ? edges[i].to : edges[i].from, edges[i].weight);
        }
    }
}

int apsp_load(apsp *network, const struct apsp_edge *edges, size_t count, uint32_t *refused) {
    uint64_t before = network->lines, place = 0;
    for (size_t i = 0; i < count; i++) {
        if (edges[i].from >= network->vertices || edges[i].to >= network->vertices) {
            return APSP_VERTEX;
        }
    }
    for (uint32_t v = 0; v < network->vertices; v++) {
        put(network, "star %" PRIu32, v);
        put_edges_at(network, "out", edges, count, v);
        put_edges_at(network, "in", edges, count, v);
        put(network, v + 1 < network->vertices ? "\n" : "\ndist 0 0\n");
        if (send_line(network)) {
            return APSP_ENDED;
        }
        /* A refusal is short, so those of all stars find room in the pipe, and the next star follows at once. */
        network->whole = v + 1 < network->vertices;
    }
    int code = read_refusals(network, before, &place);
    if (code > 0 && refused) {
        *refused = (uint32_t)place;
    }
    return code;
}

int apsp_cut(apsp *network, uint32_t u, uint32_t v) {
    put(network, "cut %" PRIu32 " %" PRIu32 "\n", u, v);
    return update(network);
}

int apsp_grow(apsp *network, uint32_t n) {
    put(network, "grow %" PRIu32 "\n", n);
    int end = update(network);
    if (!end) {
        network->vertices = n;
    }
    return end;
}

uint32_t apsp_vertices(const apsp *network) {
    return network->vertices;
}

int apsp_dist(apsp *network, uint32_t x, uint32_t y, uint64_t *distance) {
    put(network, "dist %" PRIu32 " %" PRIu32 "\n", x, y);
    int end = ask(network);
    if (end) {
        return end;
    }
    char *place = skip_words(network->reply, 3);
    end = take_number(&place, distance);
    return answered(network, end, place);
}

int apsp_path(apsp *network, uint32_t x, uint32_t y, uint64_t *distance, uint32_t *vertices, size_t *count) {
    put(network, "path %" PRIu32 " %" PRIu32 "\n", x, y);
    int end = ask(network);
    if (end) {
        return end;
    }
    char *place = skip_words(network->reply, 3);
    end = take_walk(&place, network->vertices, distance, vertices, count);
    if (!end && (vertices[0] != x || vertices[*count - 1] != y)) {
        return ended(network);
    }
    return answered(network, end, place);
}

int apsp_row(apsp *network, uint32_t x, uint64_t *distances) {
    put(network, "row %" PRIu32 "\n", x);
    int end = ask(network);
    if (end) {
        return end;
    }
    char *place = skip_words(network->reply, 2);
    for (uint32_t y = 0; y < network->vertices; y++) {
        int found = take_number(&place, &distances[y]);
        if (found == APSP_NONE) {
            distances[y] = APSP_NO_WALK;
        } else if (found) {
            return ended(network);
        }
    }
    return answered(network, APSP_OK, place);
}

int apsp_eccentricity(apsp *network, uint32_t x, uint64_t *far, uint32_t *reach) {
    uint64_t count = 0;
    put(network, "ecc %" PRIu32 "\n", x);
    int end = ask(network);
    if (end) {
        return end;
    }
    char *place = skip_words(network->reply, 2);
    if (take_named(&place, "far", far) || take_named(&place, "reach", &count) || count > network->vertices) {
        return ended(network);
    }
    *reach = (uint32_t)count;
    return answered(network, APSP_OK, place);
}

int apsp_report(apsp *network, uint64_t *diameter, uint64_t *radius, uint32_t *centre, size_t *count) {
    put(network, "report\n");
    int end = ask(network);
    if (end) {
        return end;
    }
    char *place = skip_words(network->reply, 1);
    if (take_named(&place, "diameter", diameter) || !take_word(&place, "radius")) {
        return ended(network);
    }
    *count = 0;
    end = take_number(&place, radius);
    if (!end) {
        end = take_word(&place, "centre") ? take_vertices(&place, network->vertices, centre, count) : APSP_ENDED;
    }
    return answered(network, end, place);
}

int apsp_through(apsp *network, uint32_t v, uint64_t *pairs) {
    put(network, "through %" PRIu32 "\n", v);
    int end = ask(network);
    if (end) {
        return end;
    }
    char *place = skip_words(network->reply, 2);
    end = take_named(&place, "pairs", pairs);
    return answered(network, end, place);
}

int apsp_stats(apsp *network, struct apsp_stats *stats) {
    static const char *const words[] = {"updates", "steps", "paths", "historical", "formed", "removed"};
    uint64_t *numbers[] = {&stats->updates,    &stats->steps,  &stats->paths,
                           &stats->historical, &stats->formed, &stats->removed};
    put(network, "stats\n");
    int end = ask(network);
    char *place = end ? NULL : skip_words(network->reply, 1);
    for (int i = 0; !end && i < 6; i++) {
        end = take_named(&place, words[i], numbers[i]);
    }
    return place ? answered(network, end, place) : end;
}

int apsp_age(apsp *network, const uint32_t *vertices, size_t count, uint64_t *birth) {
    if (count > APSP_MOST_VERTICES) {
        return APSP_NONE;
    }
    put(network, "age");
    for (size_t i = 0; i < count; i++) {
        put(network, " %" PRIu32, vertices[i]);
    }
    put(network, "\n");
    int end = ask(network);
    if (end) {
        return end;
    }
    char *place = skip_words(network->reply, (int)count + 1);
    end = take_word(&place, "none") ? APSP_NONE : take_named(&place, "birth", birth);
    return answered(network, end, place);
}

struct text {
    char *bytes;
    size_t length, room;
};

static int text_room(struct text *text, size_t more) {
    if (text->length + more > text->room) {
        size_t room = 2 * text->room + more + 256;
        char *bytes = realloc(text->bytes, room);
        if (!bytes) {
            return APSP_MEMORY;
        }
        text->bytes = bytes;
        text->room = room;
    }
    return APSP_OK;
}

int apsp_certificate(apsp *network, char **text) {
    struct text all = {NULL, 0, 0};
    *text = NULL;
    put(network, "cert\n");
    int end = ask(network);
    while (!end) {
        size_t length = strlen(network->reply);
        if (text_room(&all, length + 1)) {
            end = ended(network);
            break;
        }
        memcpy(all.bytes + all.length, network->reply, length + 1);
        all.length += length;
        if (strcmp(network->reply, "end\n") == 0) {
            network->whole = 1;
            *text = all.bytes;
            return APSP_OK;
        }
        network->whole = 0;
        end = read_line(network);
    }
    free(all.bytes);
    return end;
}

/* A question of a block: the line of the block that it is, the code where it was refused, and where its reply stands. */
struct question {
    uint32_t x, y;
    uint64_t line;
    int code;
    size_t reply;
};

struct apsp_block {
    apsp *network;
    struct text lines, replies;
    uint64_t count;
    struct question *questions;
    size_t asked, room;
    int state;
};

enum { OPEN, LOST, DONE };

apsp_block *apsp_block_new(apsp *network) {
    apsp_block *block = calloc(1, sizeof *block);
    if (!block || text_room(&block->lines, 256)) {
        free(block);
        return NULL;
    }
    block->network = network;
    memcpy(block->lines.bytes, "block\n", 6);
    block->lines.length = 6;
    return block;
}

void apsp_block_free(apsp_block *block) {
    if (block) {
        free(block->lines.bytes);
        free(block->replies.bytes);
        free(block->questions);
        free(block);
    }
}

/* Puts what the network's line has behind the lines of the block. */
static int block_line(apsp_block *block) {
    apsp *network = block->network;
    size_t length = network->length;
    network->length = 0;
    if (block->state != OPEN) {
        return APSP_ENDED;
    }
    if (text_room(&block->lines, length)) {
        return APSP_MEMORY;
    }
    memcpy(block->lines.bytes + block->lines.length, network->line, length);
    block->lines.length += length;
    block->count++;
    return APSP_OK;
}

int apsp_block_star(apsp_block *block, uint32_t v, const struct apsp_item *out, size_t outs, const struct apsp_item *in,
                    size_t ins) {
    put(block->network, "star %" PRIu32, v);
    put_group(block->network, "out", out, outs);
    put_group(block->network, "in", in, ins);
    put(block->network, "\n");
    return block_line(block);
}

int apsp_block_edge(apsp_block *block, uint32_t u, uint32_t v, uint32_t w) {
    put(block->network, "edge %" PRIu32 " %" PRIu32 " %" PRIu32 "\n", u, v, w);
    return block_line(block);
}

int apsp_block_cut(apsp_block *block, uint32_t u, uint32_t v) {
    put(block->network, "cut %" PRIu32 " %" PRIu32 "\n", u, v);
    return block_line(block);
}

int apsp_block_ask(apsp_block *block, uint32_t x, uint32_t y, uint32_t since) {
    if (block->asked == block->room) {
        size_t room = 2 * block->room + 16;
        struct question *questions = realloc(block->questions, room * sizeof *questions);
        if (!questions) {
            return APSP_MEMORY;
        }
        block->questions = questions;
        block->room = room;
    }
    put(block->network, "ask %" PRIu32 " %" PRIu32 " since %" PRIu32 "\n", x, y, since);
    int end = block_line(block);
    if (!end) {
        block->questions[block->asked++] = (struct question){x, y, block->count, APSP_OK, 0};
    }
    return end;
}

/* Sends all lines and reads meanwhile, so that neither side waits for the other, up to the reply of the last line. */
static int exchange(apsp *network, const struct text *sent, struct text *got) {
    const char *rest = sent->bytes;
    size_t left = sent->length, begun = 0;
    for (size_t i = 0; i < left; i++) {
        network->lines += rest[i] == '\n';
    }
    for (;;) {
        struct pollfd ends[] = {{network->from, POLLIN, 0}, {network->to, POLLOUT, 0}};
        if (poll(ends, left > 0 ? 2 : 1, -1) < 0) {
            if (errno == EINTR) {
                continue;
            }
            return APSP_ENDED;
        }
        if (left > 0 && ends[1].revents) {
            ssize_t written = send(network->to, rest, left, MSG_NOSIGNAL | MSG_DONTWAIT);
            if (written < 0 && errno != EINTR && errno != EAGAIN) {
                return APSP_ENDED;
            }
            rest += written > 0 ? written : 0;
            left -= written > 0 ? (size_t)written : 0;
        }
        if (!ends[0].revents) {
            continue;
        }
        if (text_room(got, 65536)) {
            return APSP_ENDED;
        }
        ssize_t taken = read(network->from, got->bytes + got->length, 65535);
        if (taken < 0 && errno == EINTR) {
            continue;
        }
        if (taken <= 0) {
            return APSP_ENDED;
        }
        got->length += (size_t)taken;
        got->bytes[got->length] = 0;
        while (begun < got->length) {
            char *newline = memchr(got->bytes + begun, '\n', got->length - begun);
            if (!newline) {
                break;
            }
            if (strncmp(got->bytes + begun, "dist 0 0 0\n", 11) == 0) {
                return left == 0 && newline + 1 == got->bytes + got->length ? APSP_OK : APSP_ENDED;
            }
            begun = (size_t)(newline + 1 - got->bytes);
        }
    }
}

/* Whether a reply of a block is one to this question. */
static int answers(char *reply, uint32_t n, const struct question *question) {
    uint64_t number, x = 0, y = 0, distance;
    size_t count;
    char *place = reply;
    if (take_named(&place, "at", &number) || take_named(&place, "path", &x) || take_number(&place, &y) || x != question->x ||
        y != question->y) {
        return 0;
    }
    return take_walk(&place, n, &distance, NULL, &count) != APSP_ENDED && *place == '\n';
}

/* Hands each reply to its question, and gives the code of the first refused line, whose place it leaves. */
static int take_replies(apsp_block *block, uint64_t before, size_t *refused) {
    size_t next = 0, asked = 0;
    int first = APSP_OK;
    for (char *reply = block->replies.bytes; *reply; reply = strchr(reply, '\n') + 1) {
        uint64_t line = 0;
        int code = refusal(reply, &line);
        if (strcmp(reply, "dist 0 0 0\n") == 0) {
            break;
        }
        if (code) {
            /* The line `block` stands in front, so the lines of the block begin two behind those before it. */
            uint64_t place = line - before - 2;
            if (line < before + 2 || place >= block->count) {
                return APSP_ENDED;
            }
            while (asked < block->asked && block->questions[asked].line < place + 1) {
                asked++;
            }
            if (asked < block->asked && block->questions[asked].line == place + 1) {
                block->questions[asked].code = code;
            }
            if (!first) {
                first = code;
                *refused = (size_t)place;
            }
            continue;
        }
        while (next < block->asked && block->questions[next].code) {
            next++;
        }
        if (next == block->asked || !answers(reply, block->network->vertices, &block->questions[next])) {
            return APSP_ENDED;
        }
        block->questions[next++].reply = (size_t)(reply - block->replies.bytes);
    }
    while (next < block->asked && block->questions[next].code) {
        next++;
    }
    return next == block->asked ? first : APSP_ENDED;
}

int apsp_block_run(apsp_block *block, size_t *refused) {
    static const char last[] = "end\ndist 0 0\n";
    apsp *network = block->network;
    uint64_t before = network->lines;
    size_t place = 0;
    if (block->state != OPEN) {
        return APSP_ENDED;
    }
    if (!network->live) {
        return APSP_NEEDS_LIVE;
    }
    if (text_room(&block->lines, sizeof last)) {
        return APSP_MEMORY;
    }
    memcpy(block->lines.bytes + block->lines.length, last, sizeof last - 1);
    block->lines.length += sizeof last - 1;
    block->state = LOST;
    if (!begins(network, block->lines.length) || exchange(network, &block->lines, &block->replies)) {
        return APSP_ENDED;
    }
    int code = take_replies(block, before, &place);
    if (code != APSP_ENDED) {
        network->whole = 1;
        block->state = DONE;
        if (code && refused) {
            *refused = place;
        }
    }
    return code;
}

int apsp_block_answer(const apsp_block *block, size_t i, uint64_t *number, uint64_t *distance, uint32_t *vertices,
                      size_t *count) {
    if (block->state != DONE || i >= block->asked) {
        return APSP_ENDED;
    }
    if (block->questions[i].code) {
        return block->questions[i].code;
    }
    /* That it is of this form was seen when the block was run. */
    char *place = block->replies.bytes + block->questions[i].reply + 3;
    take_number(&place, number);
    place = skip_words(place, 3);
    return take_walk(&place, APSP_MOST_VERTICES, distance, vertices, count);
}
