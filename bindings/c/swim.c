/*
 * The calls of swim.h over the proved ones, which have `library` in their names. Nothing of this file is proved: it refuses
 * null, what is no handle, a second call in a handle and a handle of before a fork, makes, opens and locks the file of a path,
 * refuses descriptors that would not do, counts ticks of other lengths by the proved ones of 100 ms, goes over pages of rows, and
 * has the texts.
 */
#define _GNU_SOURCE
#include "swim.h"

#include <errno.h>
#include <fcntl.h>
#include <libgen.h>
#include <limits.h>
#include <pthread.h>
#include <stdio.h>
#include <stdlib.h>
#include <string.h>
#include <sys/file.h>
#include <sys/mman.h>
#include <sys/stat.h>
#include <unistd.h>

#if defined __GLIBC__ && (__GLIBC__ > 2 || __GLIBC_MINOR__ >= 32)
#include <sys/single_threaded.h>
#define HAS_ONE_THREAD __libc_single_threaded
#else /* not known */
#define HAS_ONE_THREAD 0
#endif

/* The rows of one page. */
#define PAGE 30

/* Milliseconds in a tick of the proved side. */
#define TICK 100

/* A row as the proved side has it. */
struct row {
    uint64_t number;
    uint32_t address;
    uint16_t port;
    uint8_t kind;
};

uint32_t swim_library_make_state(int32_t fd, const struct swim_settings *settings);
uint32_t swim_library_open(struct swim_inside *member, int32_t fd, const struct swim_settings *settings, uint32_t limit);
uint32_t swim_library_close(struct swim_inside *member);
uint32_t swim_library_tick(struct swim_inside *member, uint64_t random);
uint32_t swim_library_advance(struct swim_inside *member, uint64_t now_ms, uint64_t random, uint64_t *next_ms);
uint32_t swim_library_receive(struct swim_inside *member, const struct swim_endpoint *from,
                              const uint8_t *bytes, size_t length);
uint32_t swim_library_receive_failed(struct swim_inside *member);
uint32_t swim_library_send_failed(struct swim_inside *member, uint32_t count);
uint32_t swim_library_seeds(struct swim_inside *member, const struct swim_endpoint *seeds, size_t count, uint64_t random);
uint32_t swim_library_join(struct swim_inside *member, const struct swim_endpoint *peer);
uint32_t swim_library_leave(struct swim_inside *member);
uint32_t swim_library_next_datagram(struct swim_inside *member, struct swim_endpoint *to,
                                    uint8_t *bytes, size_t room, size_t *length);
uint32_t swim_library_members(struct swim_inside *member, const struct swim_endpoint *after,
                              struct row *rows, size_t room, size_t *count);
uint32_t swim_library_next_change(struct swim_inside *member, struct row *row, struct row *was);
uint32_t swim_library_status(struct swim_inside *member, struct swim_status *status);
uint32_t swim_library_notes(struct swim_inside *member, uint8_t *notes, size_t room, size_t *count);
uint32_t swim_library_stored_peers(struct swim_inside *member, struct swim_endpoint *peers,
                                   size_t room, size_t *count);
uint32_t swim_library_keep_peers(struct swim_inside *member);

/* What crosses has the layout that the proved side and the bindings expect: the proved side knows no `reserved`. */
#define LAYOUT(type, size, field, at)                                                                                  \
    typedef char type##_is_##field[sizeof(struct type) == (size) && offsetof(struct type, field) == (at) ? 1 : -1]
LAYOUT(swim_endpoint, 8, port, 4);
LAYOUT(swim_settings, 96, port, 64);
LAYOUT(swim_row, 32, kind, 14);
LAYOUT(row, 16, kind, 14);
LAYOUT(swim_status, 96, phase, 40);
LAYOUT(swim_inside, 16, at, 8);
LAYOUT(swim_member, 32, busy, 16);

uint32_t swim_version(void) { return SWIM_VERSION; }

static const struct {
    int code;
    const char *name, *text;
} codes[] = {
    {SWIM_OK, "SWIM_OK", "done"},
    {SWIM_NOTHING, "SWIM_NOTHING", "no datagram waits, or no change is left"},
    {SWIM_NULL, "SWIM_NULL", "a pointer is null"},
    {SWIM_CLOSED, "SWIM_CLOSED", "the handle is closed"},
    {SWIM_IS_OPEN, "SWIM_IS_OPEN", "the handle is open already"},
    {SWIM_NO_ENDPOINT, "SWIM_NO_ENDPOINT", "the port is 0"},
    {SWIM_WAITING, "SWIM_WAITING", "datagrams of the last event have to be taken first"},
    {SWIM_SHORT, "SWIM_SHORT", "the buffer is too short"},
    {SWIM_NO_MEMORY, "SWIM_NO_MEMORY", "there was no memory"},
    {SWIM_FILE, "SWIM_FILE", "the system refused the state file or a call on it"},
    {SWIM_LOCKED, "SWIM_LOCKED", "another handle or process has the state file"},
    {SWIM_BAD_LAMBDA, "SWIM_BAD_LAMBDA", "lambda is not 1 to 16"},
    {SWIM_BAD_PERIOD, "SWIM_BAD_PERIOD", "period is not 2 to 1,000"},
    {SWIM_BAD_DIRECT, "SWIM_BAD_DIRECT", "direct is not 1 to period - 1"},
    {SWIM_BAD_SUSPECT, "SWIM_BAD_SUSPECT", "suspect is not 1 to 100,000"},
    {SWIM_BAD_FORGET, "SWIM_BAD_FORGET", "forget is not 1 to 1,000,000"},
    {SWIM_BAD_HELPERS, "SWIM_BAD_HELPERS", "helpers is over 8"},
    {SWIM_BAD_BLOCK, "SWIM_BAD_BLOCK", "block is not 1 to 1,024"},
    {SWIM_BAD_RULES, "SWIM_BAD_RULES", "rules is not 1 or 2"},
    {SWIM_BAD_ADDRESS, "SWIM_BAD_ADDRESS", "no member is reached at 0.0.0.0, 255.255.255.255 or an address of multicast"},
    {SWIM_BAD_RESERVED, "SWIM_BAD_RESERVED", "a byte of reserved is not 0"},
    {SWIM_OPEN_DEVICE, "SWIM_OPEN_DEVICE", "a read, write or sync of the state file failed"},
    {SWIM_OPEN_NOT_STATE, "SWIM_OPEN_NOT_STATE", "it is no state file"},
    {SWIM_OPEN_WRONG_OWNER, "SWIM_OPEN_WRONG_OWNER", "the state file is of another group or endpoint"},
    {SWIM_OPEN_NO_SLOT, "SWIM_OPEN_NO_SLOT", "the making of the state file was cut short, or something else wrote it"},
    {SWIM_OPEN_DAMAGED, "SWIM_OPEN_DAMAGED", "the state file is damaged"},
    {SWIM_OPEN_EXHAUSTED, "SWIM_OPEN_EXHAUSTED", "there is no incarnation left"},
    {SWIM_OPEN_LIMIT, "SWIM_OPEN_LIMIT", "limit is not 1 to 65,536"},
    {SWIM_OPEN_NO_MEMORY, "SWIM_OPEN_NO_MEMORY", "there was no memory"},
    {SWIM_MAKE_NOT_EMPTY, "SWIM_MAKE_NOT_EMPTY", "the file is not empty"},
    {SWIM_MAKE_DEVICE, "SWIM_MAKE_DEVICE", "a write or sync failed, and the file is not to be used"},
    {SWIM_MAKE_RANGE, "SWIM_MAKE_RANGE", "the incarnation is too great"},
    {SWIM_KEEP_DEVICE, "SWIM_KEEP_DEVICE", "a write or sync of the state file failed"},
    {SWIM_KEEP_CHANGED, "SWIM_KEEP_CHANGED", "the state file is not as the member left it"},
    {SWIM_KEEP_EXHAUSTED, "SWIM_KEEP_EXHAUSTED", "there is no incarnation left"},
    {SWIM_BUSY, "SWIM_BUSY", "another thread is in a call on this handle"},
    {SWIM_FORKED, "SWIM_FORKED", "the handle was opened before this process was forked"},
    {SWIM_BAD_DESCRIPTOR, "SWIM_BAD_DESCRIPTOR", "the descriptor is not open for reading and writing, or it has O_APPEND"},
    {SWIM_TOO_MANY, "SWIM_TOO_MANY", "there are more than 8 seeds"},
    {SWIM_NO_HANDLE, "SWIM_NO_HANDLE", "the struct is no handle: it did not begin with all bytes 0, or was written over"},
};

static const char *const notes_by_number[] = {
    "unknown note", "BadDatagram",   "OtherGroup", "NotSender",  "FromSelf", "Leap",    "NoNumberLeft",
    "TableFull",    "Misdirected",   "RelaysFull", "UnknownTarget", "Unasked", "SaveFailed", "Expelled",
    "Stopped",      "ReceiveFailed", "SendFailed", "TimeOver",   "OtherVersion",
};

const char *swim_note_name(int note) {
    return notes_by_number[note > 0 && note <= SWIM_NOTE_OTHER_VERSION ? note : 0];
}

const char *swim_name(int code) {
    for (size_t i = 0; i < sizeof codes / sizeof *codes; i++)
        if (codes[i].code == code)
            return codes[i].name;
    return "unknown code";
}

const char *swim_text(int code) {
    for (size_t i = 0; i < sizeof codes / sizeof *codes; i++)
        if (codes[i].code == code)
            return codes[i].text;
    return "unknown code";
}

/* How often this process was forked since its first opening: each child counts on. */
static volatile uint32_t forks;
static int watch_failed;

static void was_forked(void) { forks++; }

static void watch_forks(void) { watch_failed = pthread_atfork(NULL, NULL, was_forked); }

/* Marks a handle, and says what its mark was. While the process has one thread nobody can come between, and no exchange is
 * needed, which waits for all that was written before it. */
static uint32_t mark(struct swim_member *member) {
    uint32_t was;
    if (!HAS_ONE_THREAD)
        return __atomic_exchange_n(&member->busy, 1, __ATOMIC_ACQUIRE);
    was = __atomic_load_n(&member->busy, __ATOMIC_RELAXED);
    __atomic_store_n(&member->busy, 1, __ATOMIC_RELAXED);
    return was;
}

/* The mark of an open handle, as the proved side has it: the letters SWIMOPEN. */
#define OPEN_MARK UINT64_C(0x5357494d4f50454e)

/* Whether it is a handle: any other block would be busy for ever, or be marked by a call that has no right to it. */
static int check_handle(const struct swim_member *member) {
    uint64_t inside;
    if (member == NULL)
        return SWIM_NULL;
    inside = __atomic_load_n(&member->inside.mark, __ATOMIC_RELAXED);
    if ((inside != 0 && inside != OPEN_MARK) || __atomic_load_n(&member->busy, __ATOMIC_RELAXED) > 1)
        return SWIM_NO_HANDLE;
    return SWIM_OK;
}

/* Begins a call on a handle: nobody else may be in it. */
static int begin(struct swim_member *member) {
    int code = check_handle(member);
    if (code != SWIM_OK)
        return code;
    return mark(member) == 0 ? SWIM_OK : SWIM_BUSY;
}

/* Ends it, with its code. */
static int ended(struct swim_member *member, int code) {
    __atomic_store_n(&member->busy, 0, __ATOMIC_RELEASE);
    return code;
}

/* The same for a call on a member that has to be this process's own. */
static int begin_own(struct swim_member *member) {
    int code = begin(member);
    if (code == SWIM_OK && member->inside.mark != 0 && member->forks != forks)
        return ended(member, SWIM_FORKED);
    return code;
}

#define OWN(member, call)                                                                                              \
    do {                                                                                                               \
        int began = begin_own(member);                                                                                 \
        return began == SWIM_OK ? ended(member, (int)(call)) : began;                                                  \
    } while (0)

/* Closes a descriptor, and keeps errno. */
static int closing(int fd, int code) {
    int error = errno;
    close(fd);
    errno = error;
    return code;
}

/* Removes a name, and keeps errno. */
static int removing(const char *path, int code) {
    int error = errno;
    unlink(path);
    errno = error;
    return code;
}

/* With O_APPEND each write would go to the end of the file, and with no write or no read there is no life. */
static int check_descriptor(int fd) {
    int flags = fcntl(fd, F_GETFL);
    if (flags < 0)
        return SWIM_FILE;
    return (flags & O_ACCMODE) == O_RDWR && (flags & O_APPEND) == 0 ? SWIM_OK : SWIM_BAD_DESCRIPTOR;
}

/* Settings are judged before any file. The proved side judges them before it looks at the descriptor, and none is given here. */
static int check_settings(const struct swim_settings *settings) {
    int error = errno, code;
    if (settings == NULL)
        return SWIM_NULL;
    for (size_t i = 0; i < sizeof settings->reserved; i++)
        if (settings->reserved[i] != 0)
            return SWIM_BAD_RESERVED;
    code = (int)swim_library_make_state(-1, settings);
    errno = error;
    return code == SWIM_FILE ? SWIM_OK : code;
}

/* The same for an opening, of which the handle is judged first. */
static int check_opening(const struct swim_member *member, const struct swim_settings *settings) {
    int code = check_handle(member);
    return code == SWIM_OK ? check_settings(settings) : code;
}

int swim_make_state(int fd, const struct swim_settings *settings) {
    int code = check_settings(settings);
    if (code == SWIM_OK)
        code = check_descriptor(fd);
    return code == SWIM_OK ? (int)swim_library_make_state(fd, settings) : code;
}

/* Syncs the folder of a path, so that a new name stays there. */
static int sync_folder(const char *path) {
    char copy[PATH_MAX];
    int folder;
    strcpy(copy, path);
    folder = open(dirname(copy), O_RDONLY | O_DIRECTORY | O_CLOEXEC);
    if (folder < 0)
        return SWIM_FILE;
    return closing(folder, fsync(folder) == 0 ? SWIM_OK : SWIM_FILE);
}

/* Names a file that is whole by its path, and never in the place of another. Some file systems have no second names. */
static int name_whole(const char *aside, const char *path) {
    if (link(aside, path) == 0)
        return removing(aside, SWIM_OK);
    if ((errno == EPERM || errno == EOPNOTSUPP) && renameat2(AT_FDCWD, aside, AT_FDCWD, path, RENAME_NOREPLACE) == 0)
        return SWIM_OK;
    return removing(aside, SWIM_FILE);
}

int swim_make(const char *path, const struct swim_settings *settings) {
    static const char ending[] = ".XXXXXX";
    char aside[PATH_MAX];
    struct stat there;
    int fd, error = errno, code = check_settings(settings);
    if (path == NULL || code != SWIM_OK)
        return path == NULL ? SWIM_NULL : code;
    if (strlen(path) + sizeof ending > sizeof aside || lstat(path, &there) == 0) {
        errno = strlen(path) + sizeof ending > sizeof aside ? ENAMETOOLONG : EEXIST;
        return SWIM_FILE;
    }
    strcat(strcpy(aside, path), ending);
    fd = mkostemp(aside, O_CLOEXEC);
    if (fd < 0)
        return SWIM_FILE;
    code = closing(fd, swim_make_state(fd, settings));
    if (code != SWIM_OK)
        return removing(aside, code);
    code = name_whole(aside, path);
    if (code == SWIM_OK)
        code = sync_folder(path);
    if (code == SWIM_OK)
        errno = error;
    return code;
}

/* An opening, within a call on the handle. */
static int open_on(struct swim_member *member, int fd, const struct swim_settings *settings, uint32_t limit) {
    static pthread_once_t once = PTHREAD_ONCE_INIT;
    int code;
    if (pthread_once(&once, watch_forks) != 0 || watch_failed)
        return SWIM_NO_MEMORY;
    code = (int)swim_library_open(&member->inside, fd, settings, limit);
    if (code == SWIM_OK) {
        member->forks = forks;
        member->tick_ms = settings->tick_ms == 0 ? TICK : settings->tick_ms;
    }
    return code;
}

int swim_open_descriptor(struct swim_member *member, int fd, const struct swim_settings *settings, uint32_t limit) {
    int code = check_opening(member, settings);
    if (code == SWIM_OK)
        code = check_descriptor(fd);
    if (code == SWIM_OK)
        code = begin(member);
    return code == SWIM_OK ? ended(member, open_on(member, fd, settings, limit)) : code;
}

int swim_open(struct swim_member *member, const char *path, const struct swim_settings *settings, uint32_t limit) {
    int fd, code = check_opening(member, settings);
    if (path == NULL || code != SWIM_OK)
        return path == NULL ? SWIM_NULL : code;
    fd = open(path, O_RDWR | O_CLOEXEC);
    if (fd < 0)
        return SWIM_FILE;
    if (flock(fd, LOCK_EX | LOCK_NB) != 0)
        return closing(fd, errno == EWOULDBLOCK ? SWIM_LOCKED : SWIM_FILE);
    /* the member's own descriptor is a duplicate of it, and keeps the lock */
    return closing(fd, swim_open_descriptor(member, fd, settings, limit));
}

int swim_open_memory(struct swim_member *member, const struct swim_settings *settings, uint32_t limit) {
    int fd, code = check_opening(member, settings);
    if (code != SWIM_OK)
        return code;
    fd = memfd_create("swim", MFD_CLOEXEC);
    if (fd < 0)
        return SWIM_FILE;
    code = swim_make_state(fd, settings);
    if (code == SWIM_OK)
        code = swim_open_descriptor(member, fd, settings, limit);
    return closing(fd, code);
}

int swim_close(struct swim_member *member) {
    int code = begin(member);
    return code == SWIM_OK ? ended(member, (int)swim_library_close(&member->inside)) : code;
}

int swim_tick(struct swim_member *member, uint64_t random) {
    OWN(member, swim_library_tick(&member->inside, random));
}

/* The product of two numbers, or the greatest number. */
static uint64_t times(uint64_t a, uint64_t b) { return b != 0 && a > UINT64_MAX / b ? UINT64_MAX : a * b; }

/* The sum of two numbers, or the greatest number. */
static uint64_t plus(uint64_t a, uint64_t b) { return a > UINT64_MAX - b ? UINT64_MAX : a + b; }

/* What the proved side is told of the clock: so many of its milliseconds are over in a tick as it has in one. */
static uint64_t to_proved(uint64_t now_ms, uint64_t tick_ms) {
    return plus(times(now_ms / tick_ms, TICK), now_ms % tick_ms * TICK / tick_ms);
}

/* The first moment of the program's clock at which it is told so much. */
static uint64_t from_proved(uint64_t told_ms, uint64_t tick_ms) {
    return plus(times(told_ms / TICK, tick_ms), (told_ms % TICK * tick_ms + TICK - 1) / TICK);
}

int swim_advance(struct swim_member *member, uint64_t now_ms, uint64_t random, uint64_t *next_ms) {
    uint64_t next, tick_ms;
    int code;
    if (next_ms == NULL)
        return SWIM_NULL;
    code = begin_own(member);
    if (code != SWIM_OK)
        return code;
    tick_ms = member->inside.mark == OPEN_MARK ? member->tick_ms : TICK; /* a closed handle has none */
    code = (int)swim_library_advance(&member->inside, to_proved(now_ms, tick_ms), random, &next);
    if (code == SWIM_OK)
        *next_ms = from_proved(next, tick_ms);
    return ended(member, code);
}

int swim_receive(struct swim_member *member, struct swim_endpoint from, const uint8_t *bytes, size_t length) {
    static const uint8_t none;
    if (bytes == NULL && length != 0)
        return SWIM_NULL;
    OWN(member, swim_library_receive(&member->inside, &from, bytes == NULL ? &none : bytes, length));
}

int swim_receive_failed(struct swim_member *member) {
    OWN(member, swim_library_receive_failed(&member->inside));
}

int swim_send_failed(struct swim_member *member, uint32_t count) {
    OWN(member, swim_library_send_failed(&member->inside, count));
}

int swim_seeds(struct swim_member *member, const struct swim_endpoint *seeds, size_t count, uint64_t random) {
    static const struct swim_endpoint none;
    if (seeds == NULL && count != 0)
        return SWIM_NULL;
    OWN(member, swim_library_seeds(&member->inside, seeds == NULL ? &none : seeds, count, random));
}

int swim_join(struct swim_member *member, struct swim_endpoint peer) {
    OWN(member, swim_library_join(&member->inside, &peer));
}

int swim_leave(struct swim_member *member) { OWN(member, swim_library_leave(&member->inside)); }

int swim_next_datagram(struct swim_member *member, struct swim_endpoint *to, uint8_t *bytes, size_t room, size_t *length) {
    if (to == NULL || bytes == NULL || length == NULL)
        return SWIM_NULL;
    OWN(member, swim_library_next_datagram(&member->inside, to, bytes, room, length));
}

/* All rows, page by page, within a call on the handle. */
static int list_rows(struct swim_inside *inside, struct row all[SWIM_MEMBERS_MAX], size_t *total) {
    struct swim_endpoint after = {0, 0};
    struct row page[PAGE];
    size_t got = PAGE;
    for (*total = 0; got == PAGE && *total < SWIM_MEMBERS_MAX;) {
        int code = (int)swim_library_members(inside, &after, page, PAGE, &got);
        if (code != SWIM_OK)
            return code;
        for (size_t i = 0; i < got && *total < SWIM_MEMBERS_MAX; i++)
            all[(*total)++] = page[i];
        if (got > 0) {
            after.address = page[got - 1].address;
            after.port = page[got - 1].port;
        }
    }
    return SWIM_OK;
}

/* The calls that only read are told of a constant handle: what the member answers stays as it is. Its mark does not. */
#define READ(member) ((struct swim_member *)(member))

/* A row as swim.h has it. */
static struct swim_row shown(const struct row *row) {
    return (struct swim_row){row->number, row->address, row->port, row->kind, {0}};
}

int swim_members(const struct swim_member *member, struct swim_row *rows, size_t room, size_t *count) {
    struct row all[SWIM_MEMBERS_MAX];
    size_t total;
    int code;
    if (count == NULL || (rows == NULL && room != 0))
        return SWIM_NULL;
    code = begin_own(READ(member));
    if (code == SWIM_OK)
        code = ended(READ(member), list_rows(&READ(member)->inside, all, &total));
    if (code != SWIM_OK)
        return code;
    for (size_t i = 0; i < total && i < room; i++)
        rows[i] = shown(&all[i]);
    *count = total;
    return SWIM_OK;
}

int swim_next_change(struct swim_member *member, struct swim_row *row, struct swim_row *was) {
    struct row now, before;
    int code;
    if (row == NULL || was == NULL)
        return SWIM_NULL;
    code = begin_own(member);
    if (code == SWIM_OK)
        code = ended(member, (int)swim_library_next_change(&member->inside, &now, &before));
    if (code != SWIM_OK)
        return code;
    *row = shown(&now);
    *was = shown(&before);
    return SWIM_OK;
}

int swim_get_status(const struct swim_member *member, struct swim_status *status) {
    static const struct swim_status none;
    int code;
    if (status == NULL)
        return SWIM_NULL;
    code = begin_own(READ(member));
    if (code != SWIM_OK)
        return code;
    code = (int)swim_library_status(&READ(member)->inside, status);
    if (code == SWIM_OK)
        memcpy(status->reserved, none.reserved, sizeof none.reserved);
    return ended(READ(member), code);
}

int swim_notes(const struct swim_member *member, uint8_t notes[SWIM_NOTES_MAX], size_t *count) {
    if (notes == NULL || count == NULL)
        return SWIM_NULL;
    OWN(READ(member), swim_library_notes(&READ(member)->inside, notes, SWIM_NOTES_MAX, count));
}

int swim_stored_peers(const struct swim_member *member, struct swim_endpoint peers[SWIM_PEERS_MAX], size_t *count) {
    if (peers == NULL || count == NULL)
        return SWIM_NULL;
    OWN(READ(member), swim_library_stored_peers(&READ(member)->inside, peers, SWIM_PEERS_MAX, count));
}

int swim_keep_peers(struct swim_member *member) {
    OWN(member, swim_library_keep_peers(&member->inside));
}
