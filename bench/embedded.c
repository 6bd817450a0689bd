/*
 * A call of the library beside a call of the node without it: the same pings and ticks, over 256 rows, in nanoseconds. Both
 * answer the same datagram. Both have eras of one entry, and then one that all turns fill. Then saves on a real file: pings
 * that suspect the member. It counts the allocations of all calls after the opening.
 * `bench/embedded` builds and runs it.
 */
#include "swim.h"

#include <stdio.h>
#include <stdlib.h>
#include <string.h>
#include <sys/resource.h>
#include <time.h>
#include <unistd.h>

#define PORT 7000
#define ME 0x0a000001u
#define OTHERS 0x0a000100u
#define TURNS 2000 /* so few that in some round nothing comes between */
#define ERA 1024   /* the entries of a long era, which so many turns all but fill */
#define LONG_TURNS 1000
#define PERIOD 1000
#define ROUNDS 1000
#define SAVES 200
#define STATE "out/embedded.state"
#define SHOWN 1664

uint64_t swim_bench_node_pings(const uint8_t *before, size_t before_length, const uint8_t *text, size_t length, uint32_t era,
                               uint32_t turns, uint8_t *out, size_t room);
uint64_t swim_bench_node_ticks(const uint8_t *before, size_t before_length, uint64_t period, uint32_t era, uint32_t turns,
                               uint8_t *out, size_t room);

static long allocations;
void *__real_malloc(size_t);
void *__real_realloc(void *, size_t);
void *__wrap_malloc(size_t size) { return allocations++, __real_malloc(size); }
void *__wrap_realloc(void *old, size_t size) { return allocations++, __real_realloc(old, size); }

static uint8_t *put(uint8_t *at, uint64_t value, int bytes) {
    while (bytes-- > 0)
        *at++ = (uint8_t)(value >> (8 * bytes));
    return at;
}

/* The head of a ping of the first other, by rules 1, with so many updates. */
static uint8_t *head(uint8_t *out, uint32_t count) {
    uint8_t *at = out;
    memcpy(at, "SWIM", 4);
    at = put(put(put(at + 4, 0x0101, 2), count, 1), 0, 1);
    at = put(put(at, 7, 8), 1, 4);
    at = put(put(at, OTHERS, 4), PORT, 2);
    return put(put(at, ME, 4), PORT, 2);
}

static uint8_t *update(uint8_t *at, uint32_t kind, uint32_t who, uint64_t number) {
    return put(put(put(put(put(at, kind, 1), 0, 1), who, 4), PORT, 2), number, 8);
}

/* A ping with updates about these many others from the first on. */
static size_t ping(uint8_t *out, uint32_t first, uint32_t count) {
    uint8_t *at = head(out, count);
    for (uint32_t i = 0; i < count; i++)
        at = update(at, 1, OTHERS + (first + i) % 256, 1);
    return (size_t)(at - out);
}

/* A ping that suspects the member, which it refutes with the next number: that is saved first. */
static size_t suspicion(uint8_t *out, uint64_t number) {
    return (size_t)(update(head(out, 1), 2, ME, number) - out);
}

static double now(void) {
    struct timespec t;
    clock_gettime(CLOCK_MONOTONIC, &t);
    return (double)t.tv_sec * 1e9 + (double)t.tv_nsec;
}

static uint8_t before[40 * 512], text[512], last[512];
static size_t before_length, length, last_length;
static long during; /* allocations of calls after an opening */
static const struct swim_endpoint other = {OTHERS, PORT};

static void must(int code) {
    if (code != SWIM_OK) {
        fprintf(stderr, "%s\n", swim_name(code));
        exit(1);
    }
}

static void take(struct swim_member *m) {
    struct swim_endpoint to;
    while (swim_next_datagram(m, &to, last, sizeof last, &last_length) == SWIM_OK)
        continue;
}

/* Opens a member that has heard of all others, on a file or in memory. */
static void open_one(struct swim_member *m, const char *path, uint32_t limit) {
    struct swim_settings settings = SWIM_USUAL_SETTINGS;
    memset(m, 0, sizeof *m);
    settings.group = 7;
    settings.address = ME;
    settings.port = PORT;
    settings.period = PERIOD;
    settings.direct = PERIOD - 1;
    settings.suspect = 100000;
    settings.forget = 1000000;
    settings.rules = 1;
    if (path == NULL) {
        must(swim_open_memory(m, &settings, limit));
    } else {
        must(swim_make(path, &settings));
        must(swim_open(m, path, &settings, limit));
    }
    for (size_t at = 0; at + 512 <= before_length; at += 512) {
        must(swim_receive(m, other, before + at, 512));
        take(m);
    }
}

static double least(double a, double b) { return a < b ? a : b; }

/* What is measured of pings or of ticks in eras of one length, of all turns: the least of all rounds, in nanoseconds. */
struct least {
    double library; /* of the library: its calls, and what takes out what they send */
    double node[2]; /* of the node: what readies it, and with it all turns */
};

/* The length of an era, and how many turns are measured in one round. */
struct eras {
    uint32_t limit, turns;
};

static const struct eras short_eras = {1, TURNS}, long_era = {ERA, LONG_TURNS};

/* One call of the library. */
static int call(struct swim_member *m, int ticks, int turn) {
    return ticks ? swim_tick(m, (uint64_t)turn) : swim_receive(m, other, text, length);
}

/* Enters so many texts that are no datagrams. */
static void fill(struct swim_member *m, size_t entries) {
    while (entries-- > 0) {
        must(swim_receive(m, other, text, 0));
        take(m);
    }
}

/* Turns of a handle that has just been opened, each time in an era that begins, whose memory has been written. */
static void library_turns(int ticks, struct eras eras, struct least *found) {
    struct swim_member m;
    open_one(&m, NULL, eras.limit);
    fill(&m, (eras.limit - before_length / 512 % eras.limit) % eras.limit);
    long had = allocations;
    double start = now();
    for (uint32_t turn = 0; turn < eras.turns; turn++) {
        must(call(&m, ticks, (int)turn));
        take(&m);
    }
    found->library = least(found->library, now() - start);
    during += allocations - had;
    must(swim_close(&m));
}

/* Nanoseconds of a node whose eras have so many entries, with its opening and all that readies it. */
static double node_turns(int ticks, uint32_t era, uint32_t turns) {
    uint8_t out[SHOWN];
    double start = now();
    uint64_t entered = ticks ? swim_bench_node_ticks(before, before_length, PERIOD, era, turns, out, sizeof out)
                             : swim_bench_node_pings(before, before_length, text, length, era, turns, out, sizeof out);
    double took = now() - start;
    if (entered != turns) {
        fprintf(stderr, "%llu turns were entered\n", (unsigned long long)entered);
        exit(1);
    }
    return took;
}

/* One round of both, so that what disturbs the machine disturbs both. */
static void one_round(int ticks, struct eras eras, struct least *found) {
    library_turns(ticks, eras, found);
    found->node[0] = least(found->node[0], node_turns(ticks, eras.limit, 0));
    found->node[1] = least(found->node[1], node_turns(ticks, eras.limit, eras.turns));
}

/* A row of the table. */
static void show(int ticks, struct eras eras, const struct least *found) {
    double node = (found->node[1] - found->node[0]) / eras.turns, library = found->library / eras.turns;
    printf("| %s | %u | %.0f ns | %.0f ns | %.2f |\n", ticks ? "tick" : "ping", eras.limit, node, library, library / node);
}

/* Nanoseconds of a call that saves: suspicions, each of which takes the next number, and then the peers. */
static double save_all(struct swim_member *m) {
    uint8_t bytes[SWIM_DATAGRAM_MAX];
    struct swim_status status;
    must(swim_get_status(m, &status));
    uint64_t number = status.number;
    double start = now();
    for (int turn = 0; turn < SAVES; turn++) {
        must(swim_receive(m, other, bytes, suspicion(bytes, number + (uint64_t)turn)));
        take(m);
    }
    for (int turn = 0; turn < SAVES; turn++)
        must(swim_keep_peers(m));
    double all = now() - start;
    must(swim_get_status(m, &status));
    if (status.number != number + SAVES) {
        fprintf(stderr, "%llu numbers were saved\n", (unsigned long long)(status.number - number));
        exit(1);
    }
    return all / (2 * SAVES);
}

/* Saves of a handle, and what memory it took to open. */
static void save_turns(double *save, long *kilobytes) {
    struct swim_member m;
    struct rusage usage;
    getrusage(RUSAGE_SELF, &usage);
    *kilobytes = usage.ru_maxrss;
    open_one(&m, STATE, 1);
    getrusage(RUSAGE_SELF, &usage);
    *kilobytes = usage.ru_maxrss - *kilobytes;
    long had = allocations;
    *save = save_all(&m);
    during += allocations - had;
    must(swim_close(&m));
    unlink(STATE);
}

int main(void) {
    struct least found[2][2]; /* in short and in long eras, of pings and of ticks */
    const struct eras eras[2] = {short_eras, long_era};
    double save;
    long kilobytes;
    unlink(STATE);
    /* until each row was heard and each update has been sent as often as it may */
    for (int i = 0; i < 36; i++)
        before_length += ping(before + before_length, (uint32_t)i * 30 % 256, 30);
    length = ping(text, 0, 0);
    save_turns(&save, &kilobytes);
    for (int kind = 0; kind < 4; kind++)
        found[kind / 2][kind % 2] = (struct least){1e18, {1e18, 1e18}};
    for (int round = 0; round < ROUNDS; round++)
        for (int kind = 0; kind < 4; kind++)
            one_round(kind % 2, eras[kind / 2], &found[kind / 2][kind % 2]);
    puts("| | entries of an era | `Node::apply` | the library's call, and what it sends | ratio |\n"
         "|---|---|---|---|---|");
    for (int kind = 0; kind < 4; kind++)
        show(kind % 2, eras[kind / 2], &found[kind / 2][kind % 2]);
    printf("\n%ld allocations in %ld calls after the opening, of which %d saved, each in %.2f ms; a member took %ld KB\n", during,
           2L * ROUNDS * (TURNS + LONG_TURNS) + 2 * SAVES, 2 * SAVES, save / 1e6, kilobytes);
    return 0;
}
