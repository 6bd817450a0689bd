/*
 * Calls of swim.h as programs should not make them, and as they may. tests/embedded builds it with sanitizers, and with
 * malloc, realloc, free, pwrite and fsync of the library wrapped, so that any of them can be refused:
 *
 *     calls misuse              each wrong call answers its code
 *     calls refuse              each allocation of an opening is refused once, and nothing is left
 *     calls fail                each write and sync of a life is failed once: no life says a number of an earlier one, and none
 *                               allocates after its opening
 *     calls order               each turn probes each other member once, in an order that the random words give
 *     calls changes             changes are told once each and in order, and lead to the rows that swim_members has
 *     calls clock               ticks are made by the clock, and those that are late are skipped
 *     calls seeds               whom a member joins that was told of seeds, and when: alone, once answered, and each 300 ticks
 *     calls make                a making that is killed at any moment leaves its path whole or not there
 *     calls fork                a handle that was open is refused in the child of a fork, which may close it
 *     calls threads             calls of four threads on one handle: whoever meets another is told, and nothing breaks
 *     calls random SEED COUNT   random calls with random bytes
 */
#include "swim.h"

#include <errno.h>
#include <fcntl.h>
#include <glob.h>
#include <pthread.h>
#include <sched.h>
#include <signal.h>
#include <stdio.h>
#include <stdlib.h>
#include <string.h>
#include <sys/wait.h>
#include <time.h>
#include <unistd.h>

static int wrong, made;

static void holds(int held, const char *about) {
    made++;
    if (!held) {
        wrong++;
        printf("not so: %s\n", about);
    }
}

static void want(const char *about, int code, int expected) {
    made++;
    if (code != expected) {
        wrong++;
        printf("%s: %s in place of %s\n", about, swim_name(code), swim_name(expected));
    }
}

/* What the library asks of the C library. */

void *__real_malloc(size_t);
void *__real_realloc(void *, size_t);
void __real_free(void *);
ssize_t __real_pwrite(int, const void *, size_t, off_t);
int __real_fsync(int);

static long allocations, live, refused_at, disk_calls, failed_at;

void *__wrap_malloc(size_t size) {
    void *block = ++allocations == refused_at ? NULL : __real_malloc(size);
    live += block != NULL;
    return block;
}

void *__wrap_realloc(void *old, size_t size) {
    void *block = ++allocations == refused_at ? NULL : __real_realloc(old, size);
    live += old == NULL && block != NULL;
    return block;
}

void __wrap_free(void *block) {
    live -= block != NULL;
    __real_free(block);
}

ssize_t __wrap_pwrite(int fd, const void *bytes, size_t length, off_t at) {
    if (++disk_calls == failed_at)
        return errno = EIO, -1;
    return __real_pwrite(fd, bytes, length, at);
}

int __wrap_fsync(int fd) {
    if (++disk_calls == failed_at)
        return errno = EIO, -1;
    return __real_fsync(fd);
}

/* What is sent to a member. */

#define ME_PORT 7801
#define KIND_JOIN 4 /* docs/reference/FORMATS.md */
#define MAKES 300
#define LOOPBACK 0x7f000001u

static const struct swim_endpoint peer = {LOOPBACK, 7802};

static struct swim_settings sound(void) {
    struct swim_settings settings = SWIM_USUAL_SETTINGS;
    settings.group = 7;
    settings.address = LOOPBACK;
    settings.port = ME_PORT;
    return settings;
}

static uint8_t *put(uint8_t *at, uint64_t value, int bytes) {
    while (bytes-- > 0)
        *at++ = (uint8_t)(value >> (8 * bytes));
    return at;
}

/* A ping of the peer, by rules 2, that says a Suspect of the member. */
static size_t suspicion(uint8_t *out, uint64_t number) {
    uint8_t *at = out;
    memcpy(at, "SWIM", 4);
    at = put(at + 4, 0x02010100, 4); /* version, ping, one update, 0 */
    at = put(at, 7, 8);
    at = put(at, 1, 4);
    at = put(put(at, LOOPBACK, 4), peer.port, 2);
    at = put(put(at, LOOPBACK, 4), ME_PORT, 2);
    at = put(at, 0x0200, 2);
    at = put(put(at, LOOPBACK, 4), ME_PORT, 2);
    at = put(at, number, 8);
    return (size_t)(at - out);
}

/* Takes what waits, and gives the greatest own number that it says. */
static uint64_t take_all(struct swim_member *m) {
    uint8_t bytes[SWIM_DATAGRAM_MAX], me[6];
    struct swim_endpoint to;
    size_t length;
    uint64_t most = 0;
    put(put(me, LOOPBACK, 4), ME_PORT, 2);
    while (swim_next_datagram(m, &to, bytes, sizeof bytes, &length) == SWIM_OK)
        for (size_t at = 32; at + 16 <= length; at += 16)
            if (memcmp(bytes + at + 2, me, 6) == 0) {
                uint64_t number = 0;
                for (int i = 8; i < 16; i++)
                    number = number << 8 | bytes[at + i];
                most = number > most ? number : most;
            }
    return most;
}

/* A block that never was a handle, or was written over, is refused by each call, which does not change it. */
static void no_handles(void) {
    struct swim_settings settings = sound();
    struct swim_member all, before, busy = SWIM_CLOSED_MEMBER;
    struct swim_endpoint to;
    struct swim_row row, was;
    struct swim_status status;
    uint8_t bytes[SWIM_DATAGRAM_MAX], notes[SWIM_NOTES_MAX];
    uint64_t next;
    size_t n;
    memset(&all, 0xa5, sizeof all);
    before = all;
    want("open what is no handle", swim_open(&all, "none.state", &settings, 1), SWIM_NO_HANDLE);
    want("open descriptor", swim_open_descriptor(&all, -1, &settings, 1), SWIM_NO_HANDLE);
    want("open memory", swim_open_memory(&all, &settings, 1), SWIM_NO_HANDLE);
    want("tick", swim_tick(&all, 1), SWIM_NO_HANDLE);
    want("advance", swim_advance(&all, 0, 1, &next), SWIM_NO_HANDLE);
    want("receive", swim_receive(&all, peer, bytes, 0), SWIM_NO_HANDLE);
    want("receive failed", swim_receive_failed(&all), SWIM_NO_HANDLE);
    want("send failed", swim_send_failed(&all, 1), SWIM_NO_HANDLE);
    want("seeds", swim_seeds(&all, &peer, 1, 1), SWIM_NO_HANDLE);
    want("join", swim_join(&all, peer), SWIM_NO_HANDLE);
    want("leave", swim_leave(&all), SWIM_NO_HANDLE);
    want("next", swim_next_datagram(&all, &to, bytes, sizeof bytes, &n), SWIM_NO_HANDLE);
    want("members", swim_members(&all, &row, 1, &n), SWIM_NO_HANDLE);
    want("changes", swim_next_change(&all, &row, &was), SWIM_NO_HANDLE);
    want("status", swim_get_status(&all, &status), SWIM_NO_HANDLE);
    want("notes", swim_notes(&all, notes, &n), SWIM_NO_HANDLE);
    want("keep peers", swim_keep_peers(&all), SWIM_NO_HANDLE);
    want("close", swim_close(&all), SWIM_NO_HANDLE);
    holds(memcmp(&all, &before, sizeof all) == 0, "and nothing is written over it");
    busy.busy = 0xa5a5a5a5u;
    want("tick what is busy as no call makes it", swim_tick(&busy, 1), SWIM_NO_HANDLE);
}

#define SETTING(field, value, code)                                                                                    \
    do {                                                                                                               \
        struct swim_settings s = sound();                                                                              \
        s.field = value;                                                                                               \
        want(#field " = " #value, swim_open_memory(&m, &s, 1), code);                                                  \
    } while (0)

static void misuse(void) {
    struct swim_member m = SWIM_CLOSED_MEMBER, other = SWIM_CLOSED_MEMBER;
    struct swim_settings settings = sound();
    struct swim_endpoint none = {LOOPBACK, 0}, to = {1, 2}, peers[SWIM_PEERS_MAX], both[] = {peer, none};
    struct swim_endpoint many[SWIM_SEEDS_MAX + 1];
    struct swim_row rows[SWIM_MEMBERS_MAX], was = {0};
    struct swim_status status;
    uint8_t bytes[SWIM_DATAGRAM_MAX], notes[SWIM_NOTES_MAX], noise[600];
    uint64_t next = 77;
    size_t n = 77;
    char path[] = "misuse.state";

    memset(noise, 0xa5, sizeof noise);
    for (size_t i = 0; i <= SWIM_SEEDS_MAX; i++)
        many[i] = peer;
    holds(swim_version() == SWIM_VERSION, "the version");
    want("open null", swim_open(NULL, path, &settings, 1), SWIM_NULL);
    want("open no path", swim_open(&m, NULL, &settings, 1), SWIM_NULL);
    want("open no settings", swim_open(&m, path, NULL, 1), SWIM_NULL);
    want("open descriptor null", swim_open_descriptor(NULL, 0, &settings, 1), SWIM_NULL);
    want("open memory null", swim_open_memory(NULL, &settings, 1), SWIM_NULL);
    want("make null", swim_make(NULL, &settings), SWIM_NULL);
    want("make no settings", swim_make(path, NULL), SWIM_NULL);
    want("make state no settings", swim_make_state(0, NULL), SWIM_NULL);
    want("tick null", swim_tick(NULL, 1), SWIM_NULL);
    want("advance null", swim_advance(NULL, 0, 1, &next), SWIM_NULL);
    want("advance null next", swim_advance(&m, 0, 1, NULL), SWIM_NULL);
    want("receive null", swim_receive(NULL, peer, bytes, 1), SWIM_NULL);
    want("receive_failed null", swim_receive_failed(NULL), SWIM_NULL);
    want("send_failed null", swim_send_failed(NULL, 1), SWIM_NULL);
    want("join null", swim_join(NULL, peer), SWIM_NULL);
    want("seeds null", swim_seeds(NULL, &peer, 1, 1), SWIM_NULL);
    want("null seeds", swim_seeds(&m, NULL, 1, 1), SWIM_NULL);
    want("leave null", swim_leave(NULL), SWIM_NULL);
    want("next null", swim_next_datagram(NULL, &to, bytes, sizeof bytes, &n), SWIM_NULL);
    want("members null", swim_members(NULL, rows, 1, &n), SWIM_NULL);
    want("changes null", swim_next_change(NULL, rows, &was), SWIM_NULL);
    want("changes null row", swim_next_change(&m, NULL, &was), SWIM_NULL);
    want("changes null was", swim_next_change(&m, rows, NULL), SWIM_NULL);
    want("status null", swim_get_status(NULL, &status), SWIM_NULL);
    want("notes null", swim_notes(NULL, notes, &n), SWIM_NULL);
    want("stored peers null", swim_stored_peers(NULL, peers, &n), SWIM_NULL);
    want("keep peers null", swim_keep_peers(NULL), SWIM_NULL);
    want("close null", swim_close(NULL), SWIM_NULL);

    want("tick closed", swim_tick(&m, 1), SWIM_CLOSED);
    want("advance closed", swim_advance(&m, 0, 1, &next), SWIM_CLOSED);
    want("receive closed", swim_receive(&m, peer, noise, 3), SWIM_CLOSED);
    want("receive_failed closed", swim_receive_failed(&m), SWIM_CLOSED);
    want("send_failed closed", swim_send_failed(&m, 1), SWIM_CLOSED);
    want("join closed", swim_join(&m, peer), SWIM_CLOSED);
    want("seeds closed", swim_seeds(&m, &peer, 1, 1), SWIM_CLOSED);
    want("leave closed", swim_leave(&m), SWIM_CLOSED);
    want("next closed", swim_next_datagram(&m, &to, bytes, sizeof bytes, &n), SWIM_CLOSED);
    want("members closed", swim_members(&m, rows, SWIM_MEMBERS_MAX, &n), SWIM_CLOSED);
    want("changes closed", swim_next_change(&m, rows, &was), SWIM_CLOSED);
    want("status closed", swim_get_status(&m, &status), SWIM_CLOSED);
    want("notes closed", swim_notes(&m, notes, &n), SWIM_CLOSED);
    want("stored peers closed", swim_stored_peers(&m, peers, &n), SWIM_CLOSED);
    want("keep peers closed", swim_keep_peers(&m), SWIM_CLOSED);
    want("close closed", swim_close(&m), SWIM_CLOSED);
    holds(n == 77 && next == 77 && to.address == 1 && to.port == 2, "a closed handle writes nothing");

    SETTING(port, 0, SWIM_NO_ENDPOINT);
    SETTING(lambda, 0, SWIM_BAD_LAMBDA);
    SETTING(lambda, 17, SWIM_BAD_LAMBDA);
    SETTING(period, 1, SWIM_BAD_PERIOD);
    SETTING(period, 1001, SWIM_BAD_PERIOD);
    SETTING(direct, 10, SWIM_BAD_DIRECT);
    SETTING(suspect, 0, SWIM_BAD_SUSPECT);
    SETTING(forget, 1000001, SWIM_BAD_FORGET);
    SETTING(helpers, 9, SWIM_BAD_HELPERS);
    SETTING(helpers, 4294967295u, SWIM_BAD_HELPERS);
    SETTING(block, 0, SWIM_BAD_BLOCK);
    SETTING(rules, 3, SWIM_BAD_RULES);
    SETTING(address, 0, SWIM_BAD_ADDRESS);
    SETTING(address, 0xffffffffu, SWIM_BAD_ADDRESS);
    SETTING(address, 0xe0000000u, SWIM_BAD_ADDRESS);
    SETTING(address, 0xefffffffu, SWIM_BAD_ADDRESS);
    SETTING(reserved[0], 1, SWIM_BAD_RESERVED);
    SETTING(reserved[27], 255, SWIM_BAD_RESERVED);
    for (uint32_t *address = (uint32_t[]){1, 0xdfffffffu, 0xf0000000u, 0xfffffffeu, 0}; *address != 0; address++) {
        struct swim_settings s = sound();
        s.address = *address;
        want("an address", swim_open_memory(&m, &s, 1), SWIM_OK);
        want("close", swim_close(&m), SWIM_OK);
    }
    settings.address = 0;
    want("make without an address", swim_make(path, &settings), SWIM_BAD_ADDRESS);
    want("and where there is no folder", swim_make("no/folder/misuse.state", &settings), SWIM_BAD_ADDRESS);
    want("open without an address where no file is", swim_open(&m, path, &settings, 1), SWIM_BAD_ADDRESS);
    want("open a bad descriptor without an address", swim_open_descriptor(&m, -1, &settings, 1), SWIM_BAD_ADDRESS);
    want("make a bad descriptor without an address", swim_make_state(-1, &settings), SWIM_BAD_ADDRESS);
    settings.address = LOOPBACK;
    holds(access(path, F_OK) != 0, "and nothing is left");
    settings.period = 1;
    want("open with a bad period where no file is", swim_open(&m, path, &settings, 1), SWIM_BAD_PERIOD);
    settings.period = 10;
    settings.port = 0;
    want("open without a port where no file is", swim_open(&m, path, &settings, 1), SWIM_NO_ENDPOINT);
    settings.port = ME_PORT;
    want("limit 0", swim_open_memory(&m, &settings, 0), SWIM_OPEN_LIMIT);
    want("limit great", swim_open_memory(&m, &settings, SWIM_LIMIT_MAX + 1), SWIM_OPEN_LIMIT);
    want("bad descriptor", swim_open_descriptor(&m, -1, &settings, 1), SWIM_FILE);
    want("make bad descriptor", swim_make_state(-1, &settings), SWIM_FILE);
    want("no file", swim_open(&m, path, &settings, 1), SWIM_FILE);
    holds(errno == ENOENT, "errno says that there is no file");
    want("no folder", swim_make("no/folder/misuse.state", &settings), SWIM_FILE);
    errno = 77;
    want("make", swim_make(path, &settings), SWIM_OK);
    holds(errno == 77, "what is done leaves errno as it was");
    for (int *flags = (int[]){O_RDONLY, O_WRONLY, O_RDWR | O_APPEND, -1}; *flags != -1; flags++) {
        int fd = open(path, *flags);
        want("open a descriptor that would not do", swim_open_descriptor(&m, fd, &settings, 1), SWIM_BAD_DESCRIPTOR);
        want("make on it", swim_make_state(fd, &settings), SWIM_BAD_DESCRIPTOR);
        close(fd);
    }
    want("make again", swim_make(path, &settings), SWIM_FILE);
    holds(errno == EEXIST, "errno says that something is there");
    settings.group = 8;
    want("other group", swim_open(&m, path, &settings, 1), SWIM_OPEN_WRONG_OWNER);
    settings.group = 7;
    want("no state file", swim_open(&m, "/dev/null", &settings, 1), SWIM_FILE);

    want("open", swim_open(&m, path, &settings, 1), SWIM_OK);
    want("open again", swim_open(&m, path, &settings, 1), SWIM_LOCKED);
    want("open memory over it", swim_open_memory(&m, &settings, 1), SWIM_IS_OPEN);
    want("open by another", swim_open(&other, path, &settings, 1), SWIM_LOCKED);
    want("next of none", swim_next_datagram(&m, &to, bytes, sizeof bytes, &n), SWIM_NOTHING);
    holds(n == 77 && to.port == 2, "NOTHING writes nothing");
    want("join no endpoint", swim_join(&m, none), SWIM_NO_ENDPOINT);
    want("seeds no endpoint", swim_seeds(&m, both, 2, 1), SWIM_NO_ENDPOINT);
    want("too many seeds", swim_seeds(&m, many, SWIM_SEEDS_MAX + 1, 1), SWIM_TOO_MANY);
    want("receive from port 0", swim_receive(&m, none, noise, 600), SWIM_OK);
    want("it is no event", swim_notes(&m, notes, &n), SWIM_OK);
    holds(n == 0, "and notes nothing");
    want("receive null bytes", swim_receive(&m, peer, NULL, 1), SWIM_NULL);
    want("receive nothing", swim_receive(&m, peer, NULL, 0), SWIM_OK);
    want("receive noise", swim_receive(&m, peer, noise, sizeof noise), SWIM_OK);
    want("notes", swim_notes(&m, notes, &n), SWIM_OK);
    holds(n == 1 && notes[0] == 1, "one note, BadDatagram");
    want("join", swim_join(&m, peer), SWIM_OK);
    want("receive from port 0 while waiting", swim_receive(&m, none, noise, 3), SWIM_OK);
    want("tick while waiting", swim_tick(&m, 1), SWIM_WAITING);
    want("join while waiting", swim_join(&m, peer), SWIM_WAITING);
    want("leave while waiting", swim_leave(&m), SWIM_WAITING);
    want("receive while waiting", swim_receive(&m, peer, noise, 3), SWIM_WAITING);
    want("members while waiting", swim_members(&m, rows, SWIM_MEMBERS_MAX, &n), SWIM_OK);
    want("keep peers while waiting", swim_keep_peers(&m), SWIM_OK);
    want("next null to", swim_next_datagram(&m, NULL, bytes, sizeof bytes, &n), SWIM_NULL);
    want("next null bytes", swim_next_datagram(&m, &to, NULL, 0, &n), SWIM_NULL);
    want("next null length", swim_next_datagram(&m, &to, bytes, sizeof bytes, NULL), SWIM_NULL);
    want("next short", swim_next_datagram(&m, &to, bytes, 31, &n), SWIM_SHORT);
    want("next", swim_next_datagram(&m, &to, bytes, sizeof bytes, &n), SWIM_OK);
    holds(to.address == LOOPBACK && to.port == peer.port && n >= 32, "it goes to the peer");
    want("no next", swim_next_datagram(&m, &to, bytes, sizeof bytes, &n), SWIM_NOTHING);
    want("members null count", swim_members(&m, rows, 1, NULL), SWIM_NULL);
    want("members null rows", swim_members(&m, NULL, 1, &n), SWIM_NULL);
    want("members no room", swim_members(&m, NULL, 0, &n), SWIM_OK);
    holds(n == 1, "one member, itself");
    want("status null out", swim_get_status(&m, NULL), SWIM_NULL);
    want("status", swim_get_status(&m, &status), SWIM_OK);
    holds(status.phase == SWIM_RUNNING && status.number == 1 && status.first == 1, "running, with number 1");
    long before = allocations;
    for (uint64_t i = 0; i < 1000; i++)
        if (swim_tick(&m, i) != SWIM_OK || swim_receive(&m, peer, noise, i % 600) != SWIM_OK)
            holds(0, "ticks and noise are taken");
    size_t length = suspicion(bytes, 1);
    want("suspicion", swim_receive(&m, peer, bytes, length), SWIM_OK);
    holds(take_all(&m) == 2, "it says 2 of itself");
    want("keep peers", swim_keep_peers(&m), SWIM_OK);
    holds(allocations == before, "no call after the opening allocates, saves among them");
    want("leave", swim_leave(&m), SWIM_OK);
    take_all(&m);
    want("status after", swim_get_status(&m, &status), SWIM_OK);
    holds(status.phase == SWIM_LEFT, "it has left");
    want("tick after leave", swim_tick(&m, 1), SWIM_OK);
    want("close", swim_close(&m), SWIM_OK);
    want("close again", swim_close(&m), SWIM_CLOSED);
    want("tick after close", swim_tick(&m, 1), SWIM_CLOSED);

    uint64_t last = status.number;
    want("a next life", swim_open(&m, path, &settings, 3), SWIM_OK);
    want("its status", swim_get_status(&m, &status), SWIM_OK);
    holds(status.first > last && status.number == status.first, "it begins above");
    want("its peers", swim_stored_peers(&m, peers, &n), SWIM_OK);
    want("close it", swim_close(&m), SWIM_OK);
    holds(live == 0, "all memory is given back");
    for (int code = -1; code < 64; code++)
        holds(strlen(swim_name(code)) > 0 && strlen(swim_text(code)) > 0 && strlen(swim_note_name(code)) > 0,
              "each code has a name and a text, and each note a name");
    holds(strcmp(swim_note_name(SWIM_NOTE_OTHER_VERSION), "OtherVersion") == 0, "the last note's name");
    holds(strcmp(swim_note_name(SWIM_NOTE_STOPPED), "Stopped") == 0, "a note's name in the middle");
    unlink(path);
}

/* Each allocation of an opening is refused once. */
static void refuse(void) {
    struct swim_settings settings = sound();
    long tried;
    for (tried = 1; tried < 1000; tried++) {
        struct swim_member m = SWIM_CLOSED_MEMBER;
        allocations = 0;
        refused_at = tried;
        int code = swim_open_memory(&m, &settings, 1);
        int was_refused = allocations >= tried;
        refused_at = 0;
        if (!was_refused) {
            want("an opening with all memory", code, SWIM_OK);
            want("its end", swim_close(&m), SWIM_OK);
            break;
        }
        holds(code == SWIM_OK || code == SWIM_NO_MEMORY || code == SWIM_OPEN_NO_MEMORY || code == SWIM_MAKE_DEVICE
                  || code == SWIM_OPEN_DEVICE, swim_name(code));
        want("the handle is as the code says", swim_tick(&m, 1), code == SWIM_OK ? SWIM_OK : SWIM_CLOSED);
        swim_close(&m);
        holds(live == 0, "a refused opening leaves no memory");
        want("it can be tried again", swim_open_memory(&m, &settings, 1), SWIM_OK);
        want("and ended", swim_close(&m), SWIM_OK);
    }
    holds(tried > 3 && tried < 1000, "allocations were refused");
    printf("%ld allocations were refused\n", tried - 1);
}

/* A life with three suspicions. It gives the greatest own number that was said, by this life or before. */
static uint64_t live_once(const char *path, uint64_t said) {
    struct swim_settings settings = sound();
    struct swim_member m = SWIM_CLOSED_MEMBER;
    struct swim_status status;
    int code = swim_open(&m, path, &settings, 1);
    if (code != SWIM_OK) {
        holds(code == SWIM_OPEN_DEVICE || code == SWIM_FILE, swim_name(code));
        return said;
    }
    want("status", swim_get_status(&m, &status), SWIM_OK);
    holds(status.first > said, "a life begins above all that was said");
    long before = allocations;
    for (int i = 0; i < 3; i++) {
        uint8_t bytes[SWIM_DATAGRAM_MAX];
        uint64_t now;
        want("status", swim_get_status(&m, &status), SWIM_OK);
        want("suspicion", swim_receive(&m, peer, bytes, suspicion(bytes, status.number)), SWIM_OK);
        now = take_all(&m);
        said = now > said ? now : said;
        code = swim_keep_peers(&m);
        holds(code == SWIM_OK || code == SWIM_KEEP_DEVICE || code == SWIM_KEEP_CHANGED, swim_name(code));
    }
    holds(allocations == before, "no save allocates, nor one that fails");
    want("close", swim_close(&m), SWIM_OK);
    return said;
}

/* Each write and sync of some lives is failed once. */
static void fail(void) {
    struct swim_settings settings = sound();
    const char *path = "fail.state";
    long tried;
    for (tried = 1; tried < 1000; tried++) {
        uint64_t said = 0;
        unlink(path);
        failed_at = 0;
        want("make", swim_make(path, &settings), SWIM_OK);
        disk_calls = 0;
        failed_at = tried;
        said = live_once(path, said);
        long calls = disk_calls;
        said = live_once(path, said);
        failed_at = 0;
        said = live_once(path, said);
        holds(said > 0, "something was said");
        if (calls < tried)
            break;
    }
    unlink(path);
    holds(live == 0, "all memory is given back");
    holds(tried > 10 && tried < 1000, "calls were failed");
    printf("%ld writes and syncs were failed\n", tried - 1);
}

/* Random calls. */

static uint64_t state;

static uint64_t draw(void) {
    uint64_t z = state += 0x9e3779b97f4a7c15u;
    z = (z ^ (z >> 30)) * 0xbf58476d1ce4e5b9u;
    z = (z ^ (z >> 27)) * 0x94d049bb133111ebu;
    return z ^ (z >> 31);
}

static uint64_t below(uint64_t n) { return draw() % n; }

static uint8_t kept[SWIM_DATAGRAM_MAX];
static size_t kept_length;

/* Some bytes: noise, or a datagram that was sent, or a suspicion, with some bytes changed. */
static size_t some_bytes(uint8_t *bytes, size_t room, uint64_t number) {
    size_t length = below(room + 1);
    uint64_t kind = below(3);
    if (kind == 0) {
        for (size_t i = 0; i < length; i++)
            bytes[i] = (uint8_t)draw();
        return length;
    }
    if (kind == 1) {
        memcpy(bytes, kept, kept_length);
        length = kept_length;
    } else {
        length = suspicion(bytes, number + below(3));
    }
    for (uint64_t i = below(4); i > 0 && length > 0; i--)
        bytes[below(length)] = (uint8_t)draw();
    return length;
}

static struct swim_endpoint some_endpoint(void) {
    struct swim_endpoint at = {LOOPBACK, (uint16_t)(7795 + below(300))};
    if (below(50) == 0)
        at.port = 0;
    return at;
}

static int one_call(struct swim_member *m) {
    uint8_t bytes[700], notes[SWIM_NOTES_MAX];
    struct swim_endpoint to, peers[SWIM_PEERS_MAX], seeds[SWIM_SEEDS_MAX + 1];
    struct swim_row rows[SWIM_MEMBERS_MAX], was;
    struct swim_status status = {0};
    struct swim_settings settings = sound();
    static uint64_t now, next;
    size_t n = 0;
    int code;
    switch (below(64)) {
    case 0: return below(256) == 0 ? swim_leave(m) : SWIM_OK;
    case 1: return swim_keep_peers(m);
    case 2: return swim_members(m, rows, below(SWIM_MEMBERS_MAX + 1), &n);
    case 3: return swim_notes(m, notes, &n);
    case 4: return swim_stored_peers(m, peers, &n);
    case 5: return swim_get_status(m, &status);
    case 6: return swim_join(m, some_endpoint());
    case 7: return swim_send_failed(m, (uint32_t)draw());
    case 8: return swim_receive_failed(m);
    case 9: return below(32) == 0 ? swim_close(m) : SWIM_OK;
    case 10: return swim_open_memory(m, &settings, 1 + (uint32_t)below(4));
    case 11: return swim_next_change(m, rows, &was);
    case 12: return swim_advance(m, below(50) == 0 ? draw() : (now += below(300)), draw(), &next);
    case 13:
        for (n = 0; n <= SWIM_SEEDS_MAX; n++)
            seeds[n] = some_endpoint();
        return swim_seeds(m, seeds, below(SWIM_SEEDS_MAX + 2), draw());
    default: break;
    }
    if (below(3) == 0)
        return swim_tick(m, draw());
    if (below(2) == 0) {
        code = swim_next_datagram(m, &to, bytes, below(4) == 0 ? below(600) : SWIM_DATAGRAM_MAX, &n);
        if (code == SWIM_OK)
            memcpy(kept, bytes, kept_length = n);
        return code;
    }
    if (below(8) == 0)
        swim_get_status(m, &status);
    n = some_bytes(bytes, sizeof bytes, status.number);
    return swim_receive(m, some_endpoint(), bytes, n);
}

#define OTHERS 12
#define PROBES (2 * OTHERS)

/* A ping of the first of these others, by rules 2, that says that they are all alive. */
static size_t presence(uint8_t *out) {
    uint8_t *at = out;
    memcpy(at, "SWIM", 4);
    at = put(put(put(at + 4, 0x0201, 2), OTHERS, 1), 0, 1);
    at = put(put(at, 7, 8), 1, 4);
    at = put(put(at, LOOPBACK, 4), peer.port, 2);
    at = put(put(at, LOOPBACK, 4), ME_PORT, 2);
    for (uint64_t i = 0; i < OTHERS; i++) {
        at = put(at, 0x0100, 2);
        at = put(put(at, LOOPBACK, 4), peer.port + i, 2);
        at = put(at, 1, 8);
    }
    return (size_t)(at - out);
}

/* Whom a member probes in two turns, by the words that follow from this one. Nobody answers it. */
static void probe(uint64_t seed, uint16_t ports[PROBES]) {
    struct swim_member m = SWIM_CLOSED_MEMBER;
    struct swim_settings settings = sound();
    struct swim_endpoint to;
    uint8_t bytes[SWIM_DATAGRAM_MAX];
    size_t length;
    int probes = 0;
    settings.suspect = 10000;
    settings.helpers = 0;
    want("open", swim_open_memory(&m, &settings, 1), SWIM_OK);
    length = presence(bytes);
    want("receive", swim_receive(&m, peer, bytes, length), SWIM_OK);
    take_all(&m);
    state = seed;
    for (int ticks = 0; probes < PROBES && ticks < 100 * PROBES; ticks++) {
        want("tick", swim_tick(&m, draw()), SWIM_OK);
        while (swim_next_datagram(&m, &to, bytes, sizeof bytes, &length) == SWIM_OK)
            if (probes < PROBES)
                ports[probes++] = to.port;
    }
    holds(probes == PROBES, "a member probes at the end of each period");
    swim_close(&m);
}

static void order(void) {
    uint16_t first[PROBES] = {0}, again[PROBES] = {0}, other[PROBES] = {0};
    probe(1, first);
    probe(1, again);
    probe(2, other);
    for (int turn = 0; turn < PROBES; turn += OTHERS)
        for (int i = 0; i < OTHERS; i++) {
            int seen = 0;
            for (int at = turn; at < turn + OTHERS; at++)
                seen += first[at] == peer.port + i;
            holds(seen == 1, "each turn probes each other once");
        }
    holds(memcmp(first, again, sizeof first) == 0, "the same words give the same order");
    for (int turn = 0; turn < PROBES; turn += OTHERS)
        holds(memcmp(first + turn, other + turn, OTHERS * sizeof *first) != 0, "other words give another order");
    holds(memcmp(first, first + OTHERS, OTHERS * sizeof *first) != 0, "the next turn has another order");
}

/* A making that is killed at any moment, and then the opening of what it left. */
static void make(void) {
    const struct swim_settings settings = sound();
    const char *path = "killed.state";
    int whole = 0;
    uint64_t longest = 1;
    struct timespec began, ended;
    state = 1;
    unlink(path);
    clock_gettime(CLOCK_MONOTONIC, &began);
    want("a making", swim_make(path, &settings), SWIM_OK);
    clock_gettime(CLOCK_MONOTONIC, &ended);
    longest += (uint64_t)((ended.tv_sec - began.tv_sec) * 1000000 + (ended.tv_nsec - began.tv_nsec) / 1000) * 3;
    for (int i = 0; i < MAKES; i++) {
        struct swim_member m = SWIM_CLOSED_MEMBER;
        glob_t left;
        unlink(path);
        pid_t child = fork();
        if (child == 0)
            _exit(swim_make(path, &settings));
        usleep((useconds_t)below(longest));
        kill(child, SIGKILL);
        waitpid(child, NULL, 0);
        if (access(path, F_OK) == 0) {
            whole++;
            want("what is there opens", swim_open(&m, path, &settings, 1), SWIM_OK);
            want("close", swim_close(&m), SWIM_OK);
        } else {
            want("what is not there is made", swim_make(path, &settings), SWIM_OK);
        }
        if (glob("killed.state.*", 0, NULL, &left) == 0)
            for (size_t n = 0; n < left.gl_pathc; n++)
                unlink(left.gl_pathv[n]);
        globfree(&left);
    }
    unlink(path);
    printf("%d of %d makings that were killed had been whole\n", whole, MAKES);
}

/* The child says by its status which calls did not answer SWIM_FORKED. It closes once it is told. */
static int be_child(struct swim_member *m, int told) {
    struct swim_endpoint to, peers[SWIM_PEERS_MAX];
    struct swim_row row, was;
    struct swim_status status;
    uint8_t bytes[SWIM_DATAGRAM_MAX];
    uint64_t next;
    size_t n;
    char byte;
    int codes[] = {
        swim_tick(m, 1), swim_receive(m, peer, bytes, 0), swim_receive_failed(m), swim_send_failed(m, 1), swim_join(m, peer),
        swim_leave(m), swim_next_datagram(m, &to, bytes, sizeof bytes, &n), swim_members(m, NULL, 0, &n),
        swim_get_status(m, &status), swim_notes(m, bytes, &n), swim_stored_peers(m, peers, &n), swim_keep_peers(m),
        swim_next_change(m, &row, &was), swim_advance(m, 0, 1, &next), swim_seeds(m, &peer, 1, 1),
    };
    for (size_t i = 0; i < sizeof codes / sizeof *codes; i++)
        if (codes[i] != SWIM_FORKED)
            return 10 + (int)i;
    if (read(told, &byte, 1) != 1)
        return 2;
    return swim_close(m) != SWIM_OK || swim_tick(m, 1) != SWIM_CLOSED || swim_open_memory(m, &(struct swim_settings){0}, 1) == 0;
}

static void fork_once(void) {
    struct swim_settings settings = sound();
    struct swim_member m = SWIM_CLOSED_MEMBER, again = SWIM_CLOSED_MEMBER;
    const char *path = "fork.state";
    int tell[2], status = -1;
    unlink(path);
    want("make", swim_make(path, &settings), SWIM_OK);
    want("open", swim_open(&m, path, &settings, 1), SWIM_OK);
    holds(pipe(tell) == 0, "a pipe");
    pid_t child = fork();
    if (child == 0)
        _exit(be_child(&m, tell[0]));
    want("the parent goes on", swim_tick(&m, 1), SWIM_OK);
    want("the parent ends", swim_close(&m), SWIM_OK);
    want("the child still has the file", swim_open(&again, path, &settings, 1), SWIM_LOCKED);
    holds(write(tell[1], "", 1) == 1, "the child is told to close");
    waitpid(child, &status, 0);
    want("what the child was answered", WEXITSTATUS(status), 0);
    want("then it opens", swim_open(&again, path, &settings, 1), SWIM_OK);
    want("close", swim_close(&again), SWIM_OK);
    unlink(path);
}

static void *use(void *given) {
    struct swim_member *m = given;
    struct swim_row rows[SWIM_MEMBERS_MAX];
    struct swim_endpoint to;
    uint8_t bytes[SWIM_DATAGRAM_MAX];
    size_t n;
    static long by_code[64];
    for (int i = 0; i < 20000; i++) {
        int code = i % 4 == 0   ? swim_tick(m, (uint64_t)i)
                   : i % 4 == 1 ? swim_join(m, peer)
                   : i % 4 == 2 ? swim_next_datagram(m, &to, bytes, sizeof bytes, &n)
                                : swim_members(m, rows, SWIM_MEMBERS_MAX, &n);
        __atomic_fetch_add(&by_code[code & 63], 1, __ATOMIC_RELAXED);
        if (code == SWIM_BUSY)
            sched_yield();
    }
    return by_code;
}

static void threads(void) {
    struct swim_settings settings = sound();
    struct swim_member m = SWIM_CLOSED_MEMBER;
    pthread_t all[4];
    void *found = NULL;
    long known = 0;
    want("open", swim_open_memory(&m, &settings, 1), SWIM_OK);
    for (int i = 0; i < 4; i++)
        holds(pthread_create(&all[i], NULL, use, &m) == 0, "a thread");
    for (int i = 0; i < 4; i++)
        pthread_join(all[i], &found);
    long *by_code = found;
    for (int *code = (int[]){SWIM_BUSY, SWIM_WAITING, SWIM_NOTHING, SWIM_OK, -1}; *code != -1; code++) {
        known += by_code[*code];
        printf("%s %ld\n", swim_name(*code), by_code[*code]);
    }
    holds(known == 80000 && by_code[SWIM_OK] > 0, "each call was made, or told why not");
    holds(m.busy == 0, "the handle is free");
    want("close", swim_close(&m), SWIM_OK);
    holds(live == 0, "all memory is given back");
}

/* What a program knows by changes alone: its rows by address and port. */
static struct swim_row known[SWIM_MEMBERS_MAX];
static size_t known_count;

static uint64_t place_of(const struct swim_row *row) { return (uint64_t)row->address << 16 | row->port; }

static int is_same(const struct swim_row *a, const struct swim_row *b) {
    return place_of(a) == place_of(b) && a->kind == b->kind && a->number == b->number;
}

/* Makes a change of the rows that are known, of which `was` has to be one, or none of its member. */
static void apply_change(const struct swim_row *row, const struct swim_row *was) {
    size_t at = 0;
    while (at < known_count && place_of(&known[at]) < place_of(was))
        at++;
    int is_known = at < known_count && place_of(&known[at]) == place_of(was);
    holds(place_of(row) == place_of(was) && !is_same(row, was), "a change is of one member");
    holds(is_known ? is_same(&known[at], was) : was->kind == 0 && was->number == 0, "it says what was told before");
    holds(row->kind != 0 || row->number == 0, "no row has no number");
    if (row->kind != 0 && is_known) {
        known[at] = *row;
    } else if (row->kind != 0) {
        memmove(&known[at + 1], &known[at], (known_count++ - at) * sizeof *known);
        known[at] = *row;
    } else if (is_known) {
        memmove(&known[at], &known[at + 1], (--known_count - at) * sizeof *known);
    }
}

/* Takes all changes. Then what is known is what swim_members has. */
static int take_changes(struct swim_member *m) {
    struct swim_row row, was, rows[SWIM_MEMBERS_MAX];
    uint64_t last = 0;
    size_t count;
    int told = 0;
    for (; swim_next_change(m, &row, &was) == SWIM_OK; told++) {
        holds(place_of(&row) > last, "changes are told by address and port, each member once");
        last = place_of(&row);
        apply_change(&row, &was);
    }
    want("members", swim_members(m, rows, SWIM_MEMBERS_MAX, &count), SWIM_OK);
    holds(count == known_count, "as many rows as changes have told");
    for (size_t i = 0; i < count && i < known_count; i++)
        holds(is_same(&rows[i], &known[i]), "the rows that changes have told");
    return told;
}

static void changes(void) {
    struct swim_member m = SWIM_CLOSED_MEMBER;
    struct swim_settings settings = sound();
    struct swim_row row, was;
    uint8_t bytes[SWIM_DATAGRAM_MAX], notes[SWIM_NOTES_MAX];
    size_t n;
    long told = 0;
    settings.suspect = 20;
    settings.forget = 100;
    want("open", swim_open_memory(&m, &settings, 1), SWIM_OK);
    long before = allocations;
    want("itself is new", take_changes(&m), 1);
    want("and told once", swim_next_change(&m, &row, &was), SWIM_NOTHING);
    want("receive noise", swim_receive(&m, peer, (const uint8_t *)"x", 1), SWIM_OK);
    want("join", swim_join(&m, peer), SWIM_OK);
    want("nothing new while a datagram waits", swim_next_change(&m, &row, &was), SWIM_NOTHING);
    take_all(&m);
    want("others", swim_receive(&m, peer, bytes, presence(bytes)), SWIM_OK);
    want("notes", swim_notes(&m, notes, &n), SWIM_OK);
    holds(n == 0, "no note");
    want("the first of them", swim_next_change(&m, &row, &was), SWIM_OK);
    holds(row.kind == SWIM_ALIVE && row.number == 1 && row.port == peer.port && was.kind == 0, "is new");
    apply_change(&row, &was);
    take_all(&m);
    want("the others", take_changes(&m), OTHERS - 1);
    for (int i = 0; i < 1000; i++) {
        want("tick", swim_tick(&m, draw()), SWIM_OK);
        take_all(&m);
        told += take_changes(&m);
    }
    holds(known_count == 1 && told == 3 * OTHERS, "each was suspected, confirmed and forgotten");
    want("suspicion", swim_receive(&m, peer, bytes, suspicion(bytes, 1)), SWIM_OK);
    take_all(&m);
    holds(take_changes(&m) >= 1 && known[0].number == 2, "its own number rose");
    holds(allocations == before, "no change allocates");
    want("close", swim_close(&m), SWIM_OK);
    holds(live == 0, "all memory is given back");
}

/* Time is `now`; gives how many datagrams were sent at it. The next tick has to be due then. */
static int sent_at(struct swim_member *m, uint64_t now, uint64_t due) {
    uint8_t bytes[SWIM_DATAGRAM_MAX];
    struct swim_endpoint to;
    uint64_t next = 0;
    size_t length;
    int sent = 0;
    want("advance", swim_advance(m, now, draw(), &next), SWIM_OK);
    holds(next == due, "the next tick is due");
    while (swim_next_datagram(m, &to, bytes, sizeof bytes, &length) == SWIM_OK)
        sent++;
    return sent;
}

/* By these settings each second tick sends a ping, and each first one asks nobody. */
static void follow_clock(void) {
    struct swim_member m = SWIM_CLOSED_MEMBER;
    struct swim_settings settings = sound();
    uint8_t bytes[SWIM_DATAGRAM_MAX];
    uint64_t next = 77;
    int sent = 0;
    settings.period = 2;
    settings.direct = 1;
    settings.helpers = 0;
    settings.suspect = 10000;
    want("open", swim_open_memory(&m, &settings, 1), SWIM_OK);
    want("others", swim_receive(&m, peer, bytes, presence(bytes)), SWIM_OK);
    want("before a tick is due, while a datagram waits", swim_advance(&m, 5000, 1, &next), SWIM_OK);
    holds(next == 5100, "the first tick is due a tick after the first call");
    want("a tick while a datagram waits", swim_advance(&m, 5100, 1, &next), SWIM_WAITING);
    holds(next == 5100, "which is written nowhere");
    take_all(&m);
    holds(sent_at(&m, 5099, 5100) == 0, "nothing before it is due");
    for (uint64_t now = 5100; now < 9100; now += 100)
        sent += sent_at(&m, now, now + 100) + sent_at(&m, now, now + 100) + sent_at(&m, now + 99, now + 100);
    holds(sent == 20, "40 ticks in 4 seconds, however often it is called");
    sent = sent_at(&m, 9150, 9200) + sent_at(&m, 9200, 9300);
    holds(sent == 1, "a tick that is late by less than a tick puts none off");
    sent = sent_at(&m, 60000, 60100) + sent_at(&m, 60000, 60100) + sent_at(&m, 60100, 60200);
    holds(sent == 1, "500 ticks that are late are one");
    sent = sent_at(&m, UINT64_MAX, UINT64_MAX);
    holds(sent <= 1, "the end of the clock");
    want("close", swim_close(&m), SWIM_OK);
}

/* Time is `now`; gives how many datagrams were sent at it. The next tick is due a tick later; a long one has a hundredth of it to spare. */
static int sent_in_tick(struct swim_member *m, uint64_t now, uint64_t length, uint64_t *next) {
    uint8_t bytes[SWIM_DATAGRAM_MAX];
    struct swim_endpoint to;
    size_t size;
    int sent = 0;
    want("advance", swim_advance(m, now, draw(), next), SWIM_OK);
    holds(*next <= now + length && now + length - *next <= length / 100, "the next tick is due a tick later");
    while (swim_next_datagram(m, &to, bytes, sizeof bytes, &size) == SWIM_OK)
        sent++;
    return sent;
}

/* Ticks are as long as the settings say. Each second one sends a ping, as in follow_clock. */
static void follow_ticks(uint16_t tick_ms) {
    struct swim_member m = SWIM_CLOSED_MEMBER;
    struct swim_settings settings = sound();
    const uint64_t length = tick_ms == 0 ? 100 : tick_ms;
    uint8_t bytes[SWIM_DATAGRAM_MAX];
    uint64_t next;
    int sent = 0;
    settings.period = 2;
    settings.direct = 1;
    settings.helpers = 0;
    settings.suspect = 10000;
    settings.tick_ms = tick_ms;
    want("open", swim_open_memory(&m, &settings, 1), SWIM_OK);
    want("others", swim_receive(&m, peer, bytes, presence(bytes)), SWIM_OK);
    take_all(&m);
    sent_in_tick(&m, 1000, length, &next);
    for (int i = 0; i < 40; i++) {
        uint64_t due = next;
        sent += sent_at(&m, due - 1, due) + sent_in_tick(&m, due, length, &next) + sent_at(&m, next - 1, next);
    }
    holds(sent == 20, "40 ticks, each when it is due");
    sent = sent_in_tick(&m, next + 1000 * length, length, &next);
    sent += sent_in_tick(&m, next, length, &next);
    holds(sent == 1, "1,000 ticks that are late are one");
    want("the end of the clock", swim_advance(&m, UINT64_MAX, 1, &next), SWIM_OK);
    take_all(&m);
    want("close", swim_close(&m), SWIM_OK);
}

/* By the settings of `lan` as docs/operate/SETTINGS.md has them. */
static void follow_lan(void) {
    const struct swim_settings lan = SWIM_LAN_SETTINGS;
    const uint16_t lengths[] = {0, 1, 7, 20, 50, 99, 100, 101, 200, 60000, 65535};
    holds(lan.period == 10 && lan.direct == 2 && lan.suspect == 80 && lan.forget == 12000 && lan.block == 1, "the times of lan");
    holds(lan.lambda == 3 && lan.helpers == 5 && lan.rules == 2 && lan.tick_ms == 50, "the counts of lan");
    for (size_t i = 0; i < sizeof lengths / sizeof *lengths; i++)
        follow_ticks(lengths[i]);
}

/* The joins that a member sends as it is called when it wants to be: when they were sent, and to whom. */
struct joins {
    struct swim_member *m;
    uint64_t now, when[64];
    uint16_t ports[64];
    int count;
};

/* Goes on until then. Late calls are none here, and a call is wanted each tick at least. */
static void join_until(struct joins *joins, uint64_t end) {
    uint8_t bytes[SWIM_DATAGRAM_MAX];
    struct swim_endpoint to;
    uint64_t next;
    size_t length;
    while (joins->now < end) {
        want("advance", swim_advance(joins->m, joins->now, draw(), &next), SWIM_OK);
        holds(next >= joins->now && next <= joins->now + 100, "it is to be called within a tick");
        while (swim_next_datagram(joins->m, &to, bytes, sizeof bytes, &length) == SWIM_OK)
            if (bytes[5] == KIND_JOIN && joins->count < 64) {
                joins->when[joins->count] = joins->now;
                joins->ports[joins->count++] = to.port;
            }
        joins->now = next;
    }
}

/* Alone with one seed: again after 100, 200 and 400 ms, each period up to the tenth, and then each third one. */
static void seek_alone(struct joins *joins) {
    static const uint64_t whens[] = {0, 100, 300, 700, 1700, 2700, 3700, 4700, 5700, 6700, 9700, 12700};
    const int expected = sizeof whens / sizeof *whens;
    join_until(joins, 15000);
    holds(joins->count == expected, "how often a lone member asks");
    for (int i = 0; i < expected; i++)
        holds(joins->ports[i] == peer.port && joins->when[i] == whens[i], "a lone member asks its seed, at these times");
}

/* Somebody answers, after more than one was asked: so the list begins again. Then each of the others is joined once, in turn, a
   sixteenth of the time `direct` after the one before or, where a tick comes between, up to twice as late. */
static void seek_answered(struct joins *joins) {
    uint8_t bytes[SWIM_DATAGRAM_MAX];
    unsigned long seen = 0;
    joins->count = 0;
    want("others", swim_receive(joins->m, peer, bytes, presence(bytes)), SWIM_OK);
    take_all(joins->m);
    join_until(joins, 17500);
    holds(joins->count > OTHERS && joins->ports[0] == peer.port, "it asks its seed, and introduces itself");
    for (int i = 1; i <= OTHERS; i++)
        seen |= 1ul << (joins->ports[i] - peer.port);
    holds(seen == (1ul << OTHERS) - 1, "to each once");
    for (int i = 2; i <= OTHERS; i++)
        holds(joins->when[i] - joins->when[i - 1] >= 19 && joins->when[i] - joins->when[i - 1] <= 38, "soon");
}

/* In a group: each 30 seconds one is joined. They are kept alive by what they send. */
static void seek_now_and_then(struct joins *joins) {
    uint8_t bytes[SWIM_DATAGRAM_MAX];
    for (int i = 0; i < 100; i++) {
        if (i == 0)
            joins->count = 0;
        want("others", swim_receive(joins->m, peer, bytes, presence(bytes)), SWIM_OK);
        take_all(joins->m);
        join_until(joins, joins->now + 1000);
    }
    holds(joins->count >= 3 && joins->count <= 4, "one is joined each 300 ticks");
}

/* With all memory that an opening takes no turn allocates. By suspect 100,000 nobody is given up meanwhile. */
static void seek(void) {
    struct swim_member m = SWIM_CLOSED_MEMBER;
    struct swim_settings settings = sound();
    struct joins joins = {&m, 0, {0}, {0}, 0};
    settings.suspect = 100000;
    want("open", swim_open_memory(&m, &settings, 1), SWIM_OK);
    long before = allocations;
    want("seeds", swim_seeds(&m, &peer, 1, 1), SWIM_OK);
    seek_alone(&joins);
    seek_answered(&joins);
    seek_now_and_then(&joins);
    want("no seeds", swim_seeds(&m, NULL, 0, 1), SWIM_OK);
    holds(allocations == before, "no join allocates");
    want("leave", swim_leave(&m), SWIM_OK);
    want("close", swim_close(&m), SWIM_OK);
}

static void random_calls(uint64_t seed, long count) {
    struct swim_member m = SWIM_CLOSED_MEMBER;
    long by_code[64] = {0};
    state = seed;
    for (long i = 0; i < count; i++) {
        int code = one_call(&m);
        holds(code >= 0 && code < 64 && strcmp(swim_name(code), "unknown code") != 0, "a code that swim.h has");
        by_code[code & 63]++;
    }
    swim_close(&m);
    holds(live == 0, "all memory is given back");
    for (int code = 0; code < 64; code++)
        if (by_code[code] > 0)
            printf("%s %ld\n", swim_name(code), by_code[code]);
}

int main(int argc, char **argv) {
    if (argc >= 2 && strcmp(argv[1], "misuse") == 0)
        misuse(), no_handles();
    else if (argc >= 2 && strcmp(argv[1], "refuse") == 0)
        refuse();
    else if (argc >= 2 && strcmp(argv[1], "fail") == 0)
        fail();
    else if (argc >= 2 && strcmp(argv[1], "order") == 0)
        order();
    else if (argc >= 2 && strcmp(argv[1], "changes") == 0)
        changes();
    else if (argc >= 2 && strcmp(argv[1], "clock") == 0)
        follow_clock(), follow_lan();
    else if (argc >= 2 && strcmp(argv[1], "seeds") == 0)
        seek();
    else if (argc >= 2 && strcmp(argv[1], "make") == 0)
        make();
    else if (argc >= 2 && strcmp(argv[1], "fork") == 0)
        fork_once();
    else if (argc >= 2 && strcmp(argv[1], "threads") == 0)
        threads();
    else if (argc == 4 && strcmp(argv[1], "random") == 0)
        random_calls(strtoull(argv[2], NULL, 10), atol(argv[3]));
    else
        return 2;
    printf("%d looks, %d wrong\n", made, wrong);
    return wrong != 0;
}
