/*
 * swim.h: a member of a SWIM group, for programs in C, C++, and all that can call C.
 *
 * The library holds a member's state machine and its state file. It opens no socket, reads no clock, starts no thread and
 * calls nothing back. The program tells it what happens, and takes out what is to be sent:
 *
 *     struct swim_settings settings = SWIM_USUAL_SETTINGS;
 *     struct swim_member member = SWIM_CLOSED_MEMBER;
 *     settings.group = 7; settings.address = 0x7f000001; settings.port = 7000;
 *     swim_make("member.state", &settings);                      once
 *     swim_open(&member, "member.state", &settings, 1);
 *     swim_seeds(&member, seeds, count, random word);            whom to join, once
 *
 *     each datagram       swim_receive(&member, from, bytes, length)
 *     then, and at `next` swim_advance(&member, now in ms, random word, &next)
 *     after each of them  swim_next_datagram(&member, ..) until it answers SWIM_NOTHING, and send each
 *
 *     swim_close(&member);
 *
 * Results.    Each call but swim_version, swim_name, swim_text and swim_note_name answers a code of `enum swim_code`. At a
 *             code other than SWIM_OK the member is as it was, and nothing is written through a pointer; only swim_make,
 *             swim_make_state, swim_keep_peers and an opening that fails may have written the file. At SWIM_FILE and at
 *             SWIM_*_DEVICE errno says what the system said. At SWIM_OK errno is as it was.
 * Handles.    A `struct swim_member` is a block of the caller's: on the stack, static or allocated. It begins with all its
 *             bytes 0, which is closed, and is neither read nor written by the caller while it is open. It may be moved
 *             between calls, if what was left behind is never used again: two copies of an open one are two handles on one
 *             file. Each call on a closed one answers SWIM_CLOSED, a second swim_close too. A block that began with other
 *             bytes, or was written over, is no handle: an opening and each call answer SWIM_NO_HANDLE, and do nothing.
 * Memory.     swim_open allocates what a member needs, by malloc, and swim_close frees it. With `limit` 1 no call between
 *             them allocates, also where it saves the state file. With more an event may, for the calls that are kept.
 *             The library keeps no pointer that it is given beyond the call.
 * Threads.    A handle is one thread's at a time: calls on it never overlap, those that only read neither. A call that meets
 *             another in the same handle answers SWIM_BUSY and does nothing. A handle may go from one thread to another where
 *             that is ordered, as by a lock or a join. Two handles share nothing. No call is made from a signal handler.
 * Fork.       Open after the fork, as after daemon(). In the child of a fork a handle that was open answers SWIM_FORKED, so
 *             that no two processes say one number; swim_close frees it there, and should be called, since the state file
 *             stays locked as long as any process has it open. The parent goes on. (exec closes the file by itself.)
 * Time.       A tick is what the group agrees on: 100 ms by the defaults of `swim run`, and 50 ms in a group that `swim up` made.
 *             `tick_ms` of the settings says it, and swim_advance makes ticks so, by the clock that it is told of. Ticks that
 *             are late are skipped and never made up: see swim_tick.
 * The file.   One handle on a state file, and never an older copy of it. swim_open locks the file (flock), and answers
 *             SWIM_LOCKED where another has it.
 * Numbers.    Addresses and ports are in host order: 127.0.0.1 is 0x7f000001.
 *
 * docs/develop/EMBEDDING.md says more.
 */
#ifndef SWIM_H
#define SWIM_H

#include <stddef.h>
#include <stdint.h>

#ifdef __cplusplus
extern "C" {
#endif

/*
 * The version of this interface. The first number, which is the soname's, changes where a program has to change or to be built
 * anew. The second rises with each call, code, note or field that is new; new fields stand where `reserved` is, so each struct
 * keeps its size. A program may be linked with a library of its own version or a later one of the same first number:
 * swim_version() / 1000 == SWIM_VERSION_MAJOR && swim_version() >= SWIM_VERSION. Codes and notes that a program does not know
 * may come.
 */
#define SWIM_VERSION_MAJOR 1
#define SWIM_VERSION_MINOR 3
#define SWIM_VERSION (SWIM_VERSION_MAJOR * 1000u + SWIM_VERSION_MINOR)

/* The most bytes of a datagram. */
#define SWIM_DATAGRAM_MAX 512u

/* The most members that are known: 256 others, and the own one. */
#define SWIM_MEMBERS_MAX 257u

/* The most notes of one event, the most peers of a state file, and the most seeds. */
#define SWIM_NOTES_MAX 32u
#define SWIM_PEERS_MAX 8u
#define SWIM_SEEDS_MAX 8u

/* The most entries of an era, and the greatest `limit`. */
#define SWIM_LIMIT_MAX 65536u

enum swim_code {
    SWIM_OK = 0,
    SWIM_NOTHING = 1,     /* no datagram waits, or no change is left */
    SWIM_NULL = 2,        /* a pointer is null that may not be */
    SWIM_CLOSED = 3,      /* the handle is closed */
    SWIM_IS_OPEN = 4,     /* the handle is open already */
    SWIM_NO_ENDPOINT = 5, /* the own port or that of a peer or seed is 0 */
    SWIM_WAITING = 6,     /* datagrams of the last event wait: take them by swim_next_datagram first */
    SWIM_SHORT = 7,       /* the buffer is too short, and the datagram still waits */
    SWIM_NO_MEMORY = 8,
    SWIM_FILE = 9,        /* the system refused the file or a call on it: errno says why */
    SWIM_LOCKED = 10,     /* another handle or another process has the state file */

    /* settings, in the order in which they are judged */
    SWIM_BAD_LAMBDA = 11,
    SWIM_BAD_PERIOD = 12,
    SWIM_BAD_DIRECT = 13,
    SWIM_BAD_SUSPECT = 14,
    SWIM_BAD_FORGET = 15,
    SWIM_BAD_HELPERS = 16,
    SWIM_BAD_BLOCK = 17,
    SWIM_BAD_RULES = 18,
    SWIM_BAD_ADDRESS = 19,  /* no member is reached at the own address: it is 0.0.0.0, 255.255.255.255 or of multicast */
    SWIM_BAD_RESERVED = 20, /* a byte of `reserved` is not 0 */

    /* an opening; nothing was written but at SWIM_OPEN_DEVICE */
    SWIM_OPEN_DEVICE = 21,      /* a read, write or sync failed, errno says why: the opening may be tried again */
    SWIM_OPEN_NOT_STATE = 22,   /* it is no state file */
    SWIM_OPEN_WRONG_OWNER = 23, /* it is of another group or endpoint */
    SWIM_OPEN_NO_SLOT = 24,     /* swim_make_state was cut short, or else something wrote the file: see swim_make_state */
    SWIM_OPEN_DAMAGED = 25,     /* something else wrote the file, or the disk lost what it had synced: docs/operate/INCIDENTS.md */
    SWIM_OPEN_EXHAUSTED = 26,   /* there is no incarnation left */
    SWIM_OPEN_LIMIT = 27,       /* `limit` is 0 or above SWIM_LIMIT_MAX */
    SWIM_OPEN_NO_MEMORY = 28,

    /* the making of a state file */
    SWIM_MAKE_NOT_EMPTY = 31, /* the file has bytes, and nothing was written */
    SWIM_MAKE_DEVICE = 32,    /* a write or sync failed, errno says why: the file is not to be used */
    SWIM_MAKE_RANGE = 33,     /* does not come */

    /* the keeping of peers; the member goes on, and the next save tries again */
    SWIM_KEEP_DEVICE = 41,    /* a write or sync failed: errno says why */
    SWIM_KEEP_CHANGED = 42,   /* the file is not as the member left it */
    SWIM_KEEP_EXHAUSTED = 43, /* there is no incarnation left */

    /* a handle or a descriptor that is used as it may not be; nothing was done */
    SWIM_BUSY = 51,          /* another thread is in a call on this handle */
    SWIM_FORKED = 52,        /* the handle was opened before this process was forked: it is the parent's */
    SWIM_BAD_DESCRIPTOR = 53, /* it is not open for both reading and writing, or it has O_APPEND */

    SWIM_TOO_MANY = 54,  /* more than SWIM_SEEDS_MAX seeds */
    SWIM_NO_HANDLE = 55  /* the struct is no handle, neither closed nor open: it did not begin with all bytes 0, or was written over */
};

/* What an event may take note of. Many of 2, 3 or 18 mean that a member is set up wrongly: this one, or the one that sent. */
enum swim_note {
    SWIM_NOTE_BAD_DATAGRAM = 1,    /* the bytes are no datagram */
    SWIM_NOTE_OTHER_GROUP = 2,     /* a datagram of another group */
    SWIM_NOTE_NOT_SENDER = 3,      /* a datagram that names another sender than the address that it came from */
    SWIM_NOTE_FROM_SELF = 4,       /* a datagram that names this member as its sender */
    SWIM_NOTE_LEAP = 5,            /* a suspicion of this member has an incarnation that is too far above its own */
    SWIM_NOTE_NO_NUMBER_LEFT = 6,  /* a suspicion of this member has the greatest incarnation */
    SWIM_NOTE_TABLE_FULL = 7,      /* there is no room for a new member */
    SWIM_NOTE_MISDIRECTED = 8,     /* a ping about another member, or a join to oneself */
    SWIM_NOTE_RELAYS_FULL = 9,     /* there is no room to ask one more member for another */
    SWIM_NOTE_UNKNOWN_TARGET = 10, /* somebody asked for a member that is not held for alive or suspected */
    SWIM_NOTE_UNASKED = 11,        /* an ack or a page that answers nothing that was asked */
    SWIM_NOTE_SAVE_FAILED = 12,    /* the state file took no save: the own incarnation stays as it is */
    SWIM_NOTE_EXPELLED = 13,       /* by rules 1: the group confirmed this member */
    SWIM_NOTE_STOPPED = 14,        /* an event after the member left or was expelled */
    SWIM_NOTE_RECEIVE_FAILED = 15, /* swim_receive_failed */
    SWIM_NOTE_SEND_FAILED = 16,    /* swim_send_failed */
    SWIM_NOTE_TIME_OVER = 17,      /* a tick at 2^62 */
    SWIM_NOTE_OTHER_VERSION = 18   /* a datagram of the other rules */
};

/* A member's name. */
struct swim_endpoint {
    uint32_t address; /* IPv4, host order */
    uint16_t port;    /* 1 to 65,535, host order */
};

/* What a member is told at its start. All members of a group have the same, but for the endpoint. Begin it with
   SWIM_USUAL_SETTINGS, with SWIM_LAN_SETTINGS, or with all bytes 0. It may be changed between two lives, but for group, address
   and port. Settings are judged before any file is looked at. */
struct swim_settings {
    uint64_t group;   /* the group's number: datagrams of other groups are refused */
    uint64_t period;  /* ticks from one probe to the next, 2 to 1,000 */
    uint64_t direct;  /* ticks that a direct answer may take before helpers are asked, 1 to period - 1 */
    uint64_t suspect; /* ticks after which a Suspect becomes Confirm, 1 to 100,000 */
    uint64_t forget;  /* ticks after which a Confirm is forgotten, 1 to 1,000,000 */
    uint64_t block;   /* own incarnations that one save of the state file reserves, 1 to 1,024 */
    uint32_t address; /* the own IPv4 address that the others see, host order: not 0.0.0.0, and none of multicast or broadcast */
    uint32_t lambda;  /* how often an update is sent, times the binary digits of the count of members, 1 to 16 */
    uint32_t helpers; /* how many others are asked about a silent target, 0 to 8 */
    uint32_t rules;   /* by which rules the group lives, 1 or 2; take 2 for a new group */
    uint16_t port;    /* the own port, 1 to 65,535, host order */
    uint16_t tick_ms; /* milliseconds in a tick of swim_advance, where 0 stands for 100 */
    uint8_t reserved[28]; /* all 0 */
};

/* The defaults of `swim run`, by rules 2. Group, address and port are yours to set. */
#define SWIM_USUAL_SETTINGS { 0, 10, 3, 50, 6000, 1, 0, 3, 3, 2, 0, 100, { 0 } }

/* The preset `lan`, by rules 2, with ticks of 50 ms: for a member of a group that `swim up` made, as the README's and the tutorial's. */
#define SWIM_LAN_SETTINGS { 0, 10, 2, 80, 12000, 1, 0, 3, 5, 2, 0, 50, { 0 } }

enum swim_kind { SWIM_ALIVE = 1, SWIM_SUSPECT = 2, SWIM_CONFIRM = 3 };

/* What is held of a member. */
struct swim_row {
    uint64_t number;  /* its incarnation */
    uint32_t address; /* IPv4, host order */
    uint16_t port;    /* host order */
    uint8_t kind;     /* enum swim_kind */
    uint8_t reserved[17];
};

enum swim_phase { SWIM_RUNNING = 0, SWIM_LEFT = 1, SWIM_EXPELLED = 2 };

struct swim_status {
    uint64_t number;    /* the own incarnation */
    uint64_t first;     /* the incarnation with which this life began: above all that an earlier one sent */
    uint64_t alive;     /* other members that are held for alive */
    uint64_t suspect;   /* those that are suspected */
    uint64_t confirmed; /* those that failed or left, and are not forgotten yet */
    uint32_t phase;     /* enum swim_phase; one that left or was expelled may be closed and opened again */
    uint8_t reserved[52];
};

/* A handle. Its fields are the library's. */
struct swim_inside {
    uint64_t mark;
    void *at;
};
struct swim_member {
    struct swim_inside inside;
    uint32_t busy;  /* 1 while a call is in it */
    uint32_t forks; /* how often the process had been forked, counted from its first opening, when it was opened */
    uint32_t tick_ms; /* of its settings */
    uint32_t reserved;
};

/* What a handle begins with. */
#define SWIM_CLOSED_MEMBER { { 0, NULL }, 0, 0, 0, 0 }

/* SWIM_VERSION of the library that is linked. */
uint32_t swim_version(void);

/* The name of a code, as "SWIM_OK", and what it says; of any other number "unknown code". Static: never freed. */
const char *swim_name(int code);
const char *swim_text(int code);

/* The name of a note as docs/reference/PROTOCOL.md has it, as "BadDatagram"; of any other number "unknown note". Static. */
const char *swim_note_name(int note);

/*
 * Makes the state file of a member at a path, where nothing may be. It is made under a name beside (the path, a dot and six
 * letters), synced, and only then named by the path, and the folder is synced: a kill at any moment leaves the path whole or
 * not there. What it left under a name beside never sent anything, and may be removed.
 * A state file that was lost is not made anew without thought: the incarnation begins at 1 again, and the group may know a
 * higher one. Make it once, where the member is set up, and let a later start without it fail.
 * SWIM_OK, SWIM_NULL, SWIM_FILE (errno is EEXIST where something is there), SWIM_NO_ENDPOINT, SWIM_BAD_*, SWIM_MAKE_*.
 */
int swim_make(const char *path, const struct swim_settings *settings);

/*
 * The same on the empty file of a descriptor, which is open for reading and writing, without O_APPEND, and stays the
 * caller's. Its folder is the caller's to sync. A kill may leave a part of it, which opens with SWIM_OPEN_NOT_STATE or
 * SWIM_OPEN_NO_SLOT. Only if no member ever ran on that file it never sent anything, and may be made anew. Of a file that
 * swim_make made, these codes say that something else wrote it.
 * SWIM_BAD_DESCRIPTOR, and else as swim_make.
 */
int swim_make_state(int fd, const struct swim_settings *settings);

/*
 * Opens a member on the state file at a path, with an own incarnation above all that it ever sent, and saves that before
 * anything is sent. The file is locked until swim_close. `limit` is how many calls are kept in memory before they are let go, 1 to
 * SWIM_LIMIT_MAX, at 9,416 bytes each. Nothing here reads them, so 1 is enough, and with 1 none is allocated later.
 * SWIM_OK, SWIM_NULL, SWIM_NO_HANDLE, SWIM_IS_OPEN, SWIM_FILE, SWIM_LOCKED, SWIM_NO_MEMORY, SWIM_NO_ENDPOINT, SWIM_BAD_*,
 * SWIM_OPEN_*.
 */
int swim_open(struct swim_member *member, const char *path, const struct swim_settings *settings, uint32_t limit);

/*
 * The same on the file of a descriptor, which is open for reading and writing, without O_APPEND. It is duplicated, and stays
 * the caller's to close. It is not locked: two handles on one file are the caller's to rule out.
 * SWIM_BAD_DESCRIPTOR, and else as swim_open.
 */
int swim_open_descriptor(struct swim_member *member, int fd, const struct swim_settings *settings, uint32_t limit);

/* For tests: a new state file in memory (memfd_create), which is gone with swim_close. Each opening begins with incarnation 1. */
int swim_open_memory(struct swim_member *member, const struct swim_settings *settings, uint32_t limit);

/*
 * Ends a member, and frees what it has. Nothing is sent: swim_leave before it tells the group. The state file stays as it
 * is. SWIM_OK, SWIM_NULL, SWIM_CLOSED.
 *
 * All calls from here on may answer SWIM_NO_HANDLE and SWIM_BUSY, and all but this one SWIM_FORKED.
 */
int swim_close(struct swim_member *member);

/*
 * Events. Each may make datagrams wait, which have to be taken before the next event.
 * SWIM_OK, SWIM_NULL, SWIM_CLOSED, SWIM_WAITING, SWIM_NO_MEMORY, and SWIM_NO_ENDPOINT of swim_join.
 */

/*
 * Time goes on by one tick. `random` is any 64 random bits: they order the probes, and guard no secret. A tick that ends no
 * period makes the same of all of them.
 *
 * Never make up for ticks that are late: after a pause hand in first what waits at the socket, make one tick, and go on from
 * now, as next = next + 100 > now ? next + 100 : now + 100. A burst of ticks ends suspicions before any answer can be read, and the
 * member then tells the group that healthy members have failed. In a group of 32 of which one made up for 300 ticks, the others
 * heard and passed on 523 such confirms; by rules 1 that expelled 21 members for good.
 */
int swim_tick(struct swim_member *member, uint64_t random);

/*
 * Time is what the program's clock says, in milliseconds: one that only rises, from whatever it counts, as CLOCK_MONOTONIC. Makes one
 * tick if one is due, however late it is, and says in *next_ms when to call again: when the next one is due, `tick_ms` of the settings
 * after this one was, or after now where that has passed. So ticks that are late are skipped. The first one is due so long after the
 * first call. Hand in first what waits at the socket. It may be called sooner, for example after each datagram. Use this or swim_tick,
 * and not both.
 *
 * Once swim_seeds was called it joins, too, whom `swim run` would join: where nothing waits, a call may make one join, and *next_ms
 * may then be now or soon. At SWIM_NO_MEMORY nothing happened, or the tick was made and the join was not, which is then due at the
 * next call too; *next_ms is not written.
 */
int swim_advance(struct swim_member *member, uint64_t now_ms, uint64_t random, uint64_t *next_ms);

/* Bytes came from there. Any bytes will do; what is no datagram of the group is noted and no more. Past 513 bytes they are
   cut, which makes them no datagram. `bytes` may be null where `length` is 0. Anybody can send from port 0, where nobody can be
   answered: such a datagram is left aside with SWIM_OK, and is no event. So no datagram makes this call answer a code that a
   program would have to end at. */
int swim_receive(struct swim_member *member, struct swim_endpoint from, const uint8_t *bytes, size_t length);

/* A receive failed, or `count` datagrams were not sent: noted, and no more. */
int swim_receive_failed(struct swim_member *member);
int swim_send_failed(struct swim_member *member, uint32_t count);

/*
 * Whom the program knows of its group, up to SWIM_SEEDS_MAX. From now on swim_advance joins them and the peers that the state file
 * stored, as `swim run` does: each once; again, quickly at first, then each period, and then each third one, while the member is alone;
 * once somebody answers up to 64 others, one after the other, so that they know soon that it is there; and each 300 ticks one of them
 * or one that is known, by chance, so that a group that was cut in two is one again. Nobody is joined in this call, and nothing waits
 * after it. Without it the program has to join by itself (swim_join). A second call takes other seeds from then on. `random` is any 64
 * random bits, by which others are drawn; the first call's count. The names of hosts are the program's to look up.
 * SWIM_OK, SWIM_NULL, SWIM_CLOSED, SWIM_NO_ENDPOINT, SWIM_TOO_MANY.
 */
int swim_seeds(struct swim_member *member, const struct swim_endpoint *seeds, size_t count, uint64_t random);

/* Asks a member of the group for all that it knows, once. swim_seeds has it done as often as it takes: a join is one datagram, which may
   be lost, and after a cut of the network that lasts longer than `suspect` a group that never joins again stays in two for ever. */
int swim_join(struct swim_member *member, struct swim_endpoint peer);

/* Leaves the group: the datagrams that wait then tell it, once, and no answer comes. The member takes part no more. */
int swim_leave(struct swim_member *member);

/*
 * Hands out the next datagram that waits: at SWIM_OK it is to be sent to *to, and waits no more. `room` is how long `bytes`
 * is; SWIM_DATAGRAM_MAX is always enough.
 * SWIM_OK, SWIM_NOTHING, SWIM_NULL, SWIM_CLOSED, SWIM_SHORT.
 */
int swim_next_datagram(struct swim_member *member, struct swim_endpoint *to, uint8_t *bytes, size_t room, size_t *length);

/*
 * The members that are known, the own one among them, by address and port: the first `room` of them into `rows`, and into
 * *count how many there are, which may be more. SWIM_MEMBERS_MAX is always room enough. `rows` may be null where `room` is 0.
 * SWIM_OK, SWIM_NULL, SWIM_CLOSED, SWIM_NO_MEMORY.
 */
int swim_members(const struct swim_member *member, struct swim_row *rows, size_t room, size_t *count);

/*
 * Tells the next change of what is held of a member, the own one among them: *row is what is held of it now, and *was what was told
 * of it before. Of one that is new, *was has the kind 0, and of one that is forgotten *row: there is no row, and its number is 0.
 * After an opening all members are new, the own one too. Ask until it answers SWIM_NOTHING, after events or each period, as you like: of a row
 * that changed twice between, one change is told. When it has told all that it found, it reads all rows and compares
 * them with those that it told. The last event's notes and the datagrams that wait stay.
 * SWIM_OK, SWIM_NOTHING, SWIM_NULL, SWIM_CLOSED, SWIM_NO_MEMORY.
 */
int swim_next_change(struct swim_member *member, struct swim_row *row, struct swim_row *was);

/* SWIM_OK, SWIM_NULL, SWIM_CLOSED. */
int swim_get_status(const struct swim_member *member, struct swim_status *status);

/* What the last event took note of, each a number of enum swim_note. SWIM_OK, SWIM_NULL, SWIM_CLOSED. */
int swim_notes(const struct swim_member *member, uint8_t notes[SWIM_NOTES_MAX], size_t *count);

/* The peers that stand in the state file: whom an earlier life knew, for swim_join. SWIM_OK, SWIM_NULL, SWIM_CLOSED. */
int swim_stored_peers(const struct swim_member *member, struct swim_endpoint peers[SWIM_PEERS_MAX], size_t *count);

/* Saves whom the member knows, the first eight that are alive or suspected. It raises the saved incarnation by one, and writes and
   syncs the file, for which a slow disk takes its time, so now and then is enough. SWIM_OK, SWIM_NULL, SWIM_CLOSED, SWIM_KEEP_*. */
int swim_keep_peers(struct swim_member *member);

#ifdef __cplusplus
}
#endif

#endif
