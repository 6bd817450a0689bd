/*
 * A group of 32 members of swim.h in one program, each with an inbox in the place of a socket, in ticks in the place of time. Each
 * looks after itself as docs/develop/EMBEDDING.md says: it reads what waits before it ticks, never makes up for a tick, and leaves the joins
 * to the library, which is told of two seeds.
 *
 *     groups pause      one rests for 300 ticks, and goes on as the page says: nobody else is confirmed by anybody
 *     groups made-up    the same, but for making up for its ticks by swim_tick: others are confirmed, so the trial before sees it
 *     groups cut        the group is cut in halves for 300 ticks: fifteen seconds later it is one
 *     groups one        one member is cut off for 300 ticks: the same
 *     groups alone      as cut, without seeds, so that nobody joins again: a minute later it is two, so the trials before see it
 */
#include "swim.h"

#include <stdio.h>
#include <stdlib.h>
#include <string.h>

#define MEMBERS 32
#define INBOX 256 /* datagrams that wait at one member; further ones are lost, as with a socket */
#define FIRST_PORT 7000
#define LOOPBACK 0x7f000001u
#define MINUTE 600 /* ticks */
#define TICK_MS 100
#define SECONDS_30 300
#define SECONDS_15 150

struct datagram {
    struct swim_endpoint from;
    uint8_t bytes[SWIM_DATAGRAM_MAX];
    size_t length;
};

static struct one {
    struct swim_member member;
    struct datagram inbox[INBOX];
    size_t waiting;
    int rests;
} group[MEMBERS];

static int is_cut, wrong;
static size_t cut_at = MEMBERS / 2; /* those before this place are one part */
static uint64_t state = 1;

static uint64_t draw(void) {
    uint64_t z = state += 0x9e3779b97f4a7c15u;
    z = (z ^ (z >> 30)) * 0xbf58476d1ce4e5b9u;
    z = (z ^ (z >> 27)) * 0x94d049bb133111ebu;
    return z ^ (z >> 31);
}

static void must(int code, const char *about) {
    if (code != SWIM_OK) {
        printf("%s: %s\n", about, swim_name(code));
        exit(1);
    }
}

static struct swim_endpoint at(size_t place) {
    struct swim_endpoint endpoint = {LOOPBACK, (uint16_t)(FIRST_PORT + place)};
    return endpoint;
}

/* Whether nothing goes from one to another. */
static int is_parted(size_t from, size_t to) { return is_cut && (from < cut_at) != (to < cut_at); }

static void send_all(size_t place) {
    struct datagram sent = {.from = at(place)};
    struct swim_endpoint to;
    while (swim_next_datagram(&group[place].member, &to, sent.bytes, sizeof sent.bytes, &sent.length) == SWIM_OK) {
        size_t other = (size_t)(to.port - FIRST_PORT);
        if (other < MEMBERS && !is_parted(place, other) && group[other].waiting < INBOX)
            group[other].inbox[group[other].waiting++] = sent;
    }
}

static void receive_all(size_t place) {
    struct one *one = &group[place];
    for (size_t i = 0; i < one->waiting; i++) {
        must(swim_receive(&one->member, one->inbox[i].from, one->inbox[i].bytes, one->inbox[i].length), "receive");
        send_all(place);
    }
    one->waiting = 0;
}

static void tick(size_t place) {
    must(swim_tick(&group[place].member, draw()), "tick");
    send_all(place);
}

/* By the clock of the program, which tells each millisecond that is a tick's: then a call as often as one is wanted at once. */
static void advance(size_t place, int now) {
    uint64_t next, now_ms = (uint64_t)now * TICK_MS;
    int calls = 0;
    do {
        must(swim_advance(&group[place].member, now_ms, draw(), &next), "advance");
        send_all(place);
    } while (next == now_ms && ++calls < 10);
    wrong += next <= now_ms || next > now_ms + TICK_MS;
}

static void join(size_t place, struct swim_endpoint peer) {
    must(swim_join(&group[place].member, peer), "join");
    send_all(place);
}

static int alive_at(size_t place) {
    struct swim_status status;
    must(swim_get_status(&group[place].member, &status), "status");
    return (int)status.alive;
}

/* How many pairs there are of which one confirms the other, without the one that rested. */
static int confirms_of_others(size_t rested) {
    struct swim_row rows[SWIM_MEMBERS_MAX];
    size_t count;
    int confirms = 0;
    for (size_t place = 0; place < MEMBERS; place++) {
        must(swim_members(&group[place].member, rows, SWIM_MEMBERS_MAX, &count), "members");
        for (size_t i = 0; i < count; i++)
            confirms += rows[i].kind == SWIM_CONFIRM && rows[i].port != at(rested).port;
    }
    return confirms;
}

/* Time goes on by so many ticks. Gives the most pairs that were confirmed at once. */
static int live(int ticks, size_t rested) {
    static int now;
    int most = 0;
    for (int end = now + ticks; now < end; now++) {
        for (size_t place = 0; place < MEMBERS; place++)
            if (!group[place].rests) {
                receive_all(place);
                advance(place, now);
            }
        for (size_t place = 0; place < MEMBERS; place++)
            if (!group[place].rests)
                receive_all(place);
        int confirms = rested < MEMBERS ? confirms_of_others(rested) : 0;
        most = confirms > most ? confirms : most;
    }
    return most;
}

/* All are told of the first and the last, or all but the first join that one, once. */
static void begin(int has_seeds) {
    const struct swim_endpoint seeds[] = {at(0), at(MEMBERS - 1)};
    for (size_t place = 0; place < MEMBERS; place++) {
        struct swim_settings settings = SWIM_USUAL_SETTINGS;
        settings.group = 7;
        settings.address = LOOPBACK;
        settings.port = at(place).port;
        must(swim_open_memory(&group[place].member, &settings, 1), "open");
        if (has_seeds)
            must(swim_seeds(&group[place].member, seeds, 2, draw()), "seeds");
        else if (place > 0)
            join(place, at(0));
    }
    live(MINUTE / 2, MEMBERS);
    for (size_t place = 0; place < MEMBERS; place++)
        if (alive_at(place) != MEMBERS - 1)
            wrong++, printf("at the start member %zu holds %d others for alive\n", place, alive_at(place));
}

/* One rests, and goes on. Gives how many other pairs were confirmed at once. */
static int rest(int makes_up) {
    const size_t rested = 5;
    int most;
    group[rested].rests = 1;
    live(SECONDS_30, MEMBERS);
    group[rested].rests = 0;
    for (int i = 0; makes_up && i < SECONDS_30; i++)
        tick(rested);
    most = live(MINUTE, rested);
    for (size_t place = 0; place < MEMBERS; place++)
        if (!makes_up && alive_at(place) != MEMBERS - 1)
            wrong++, printf("after the rest member %zu holds %d others for alive\n", place, alive_at(place));
    return most;
}

/* The group is cut and whole again. Gives how many members then hold all for alive, after so many ticks. */
static int cut(int ticks) {
    int whole = 0;
    is_cut = 1;
    live(SECONDS_30, MEMBERS);
    is_cut = 0;
    if (alive_at(MEMBERS - 1) != MEMBERS - (int)cut_at - 1)
        wrong++, printf("the cut was none: the last member holds %d others for alive\n", alive_at(MEMBERS - 1));
    live(ticks, MEMBERS);
    for (size_t place = 0; place < MEMBERS; place++)
        whole += alive_at(place) == MEMBERS - 1;
    return whole;
}

static void want(int is_so, const char *about, int count) {
    wrong += !is_so;
    printf("%s%s: %d\n", is_so ? "" : "not so: ", about, count);
}

int main(int argc, char **argv) {
    const char *trial = argc == 2 ? argv[1] : "";
    int found;
    begin(strcmp(trial, "alone") != 0);
    if (strcmp(trial, "pause") == 0)
        found = rest(0), want(found == 0, "confirms of others after a rest", found);
    else if (strcmp(trial, "made-up") == 0)
        found = rest(1), want(found > 0, "confirms of others after ticks that were made up", found);
    else if (strcmp(trial, "cut") == 0)
        found = cut(SECONDS_15), want(found == MEMBERS, "members that know all 15 seconds after a cut", found);
    else if (strcmp(trial, "one") == 0)
        cut_at = 1, found = cut(SECONDS_15), want(found == MEMBERS, "members that know all 15 seconds after one was cut off", found);
    else if (strcmp(trial, "alone") == 0)
        found = cut(MINUTE), want(found == 0, "members that know all a minute after a cut, without a join", found);
    else
        return 2;
    for (size_t place = 0; place < MEMBERS; place++)
        must(swim_close(&group[place].member), "close");
    return wrong != 0;
}
