/*
 * A member in C: one UDP socket on loopback, one poll() loop, no thread.
 *
 *     member STATE-FILE GROUP PORT PEER-PORT SECONDS
 *
 * It makes the state file where there is none, as only a trial may (see swim_make), has the library look for its group from the member
 * on PEER-PORT and from whom an earlier life knew, ticks each 100 ms, prints whom it knows in the end, leaves, and ends. PEER-PORT 0 is
 * nobody.
 */
#include "swim.h"

#include <arpa/inet.h>
#include <poll.h>
#include <stdio.h>
#include <stdlib.h>
#include <sys/random.h>
#include <sys/socket.h>
#include <time.h>
#include <unistd.h>

#define LOOPBACK 0x7f000001u

static void must(int code, const char *what) {
    if (code != SWIM_OK) {
        fprintf(stderr, "%s: %s: %s\n", what, swim_name(code), swim_text(code));
        exit(1);
    }
}

static uint64_t now_ms(void) {
    struct timespec now;
    clock_gettime(CLOCK_MONOTONIC, &now);
    return (uint64_t)now.tv_sec * 1000 + (uint64_t)now.tv_nsec / 1000000;
}

/* Sends all that waits, and tells how many datagrams the system refused. */
static void send_all(struct swim_member *member, int udp) {
    uint8_t bytes[SWIM_DATAGRAM_MAX];
    struct swim_endpoint to;
    size_t length;
    uint32_t lost = 0;
    while (swim_next_datagram(member, &to, bytes, sizeof bytes, &length) == SWIM_OK) {
        struct sockaddr_in at = {.sin_family = AF_INET, .sin_port = htons(to.port)};
        at.sin_addr.s_addr = htonl(to.address);
        if (sendto(udp, bytes, length, 0, (struct sockaddr *)&at, sizeof at) < 0)
            lost++;
    }
    if (lost > 0)
        must(swim_send_failed(member, lost), "send_failed");
}

/* Hands in what came: all that waits after a pause, but at most so many datagrams that a tick is not late for them. */
static void receive_all(struct swim_member *member, int udp) {
    uint8_t bytes[SWIM_DATAGRAM_MAX + 1];
    struct sockaddr_in at;
    for (int i = 0; i < 1000; i++) {
        socklen_t size = sizeof at;
        ssize_t length = recvfrom(udp, bytes, sizeof bytes, MSG_DONTWAIT, (struct sockaddr *)&at, &size);
        if (length < 0)
            return;
        struct swim_endpoint from = {ntohl(at.sin_addr.s_addr), ntohs(at.sin_port)};
        must(swim_receive(member, from, bytes, (size_t)length), "receive");
        send_all(member, udp);
    }
}

static uint64_t random_word(void) {
    uint64_t word;
    if (getrandom(&word, sizeof word, 0) != sizeof word)
        must(SWIM_FILE, "getrandom");
    return word;
}

/* Makes the tick that is due, if one is, joins whom it is time to join, and gives when to come again. */
static uint64_t advance(struct swim_member *member, int udp) {
    uint64_t next;
    must(swim_advance(member, now_ms(), random_word(), &next), "advance");
    send_all(member, udp);
    return next;
}

static void print_members(struct swim_member *member) {
    static const char *const kinds[] = {"?", "alive", "suspect", "confirm"};
    struct swim_row rows[SWIM_MEMBERS_MAX];
    size_t count;
    must(swim_members(member, rows, SWIM_MEMBERS_MAX, &count), "members");
    for (size_t i = 0; i < count; i++)
        printf("%s 127.0.0.1:%u %llu\n", kinds[rows[i].kind], rows[i].port, (unsigned long long)rows[i].number);
}

int main(int argc, char **argv) {
    if (argc != 6)
        return fprintf(stderr, "member STATE-FILE GROUP PORT PEER-PORT SECONDS\n"), 2;
    struct swim_settings settings = SWIM_USUAL_SETTINGS;
    settings.group = strtoull(argv[2], NULL, 10);
    settings.address = LOOPBACK;
    settings.port = (uint16_t)atoi(argv[3]);

    struct swim_member member = SWIM_CLOSED_MEMBER;
    if (access(argv[1], F_OK) != 0)
        must(swim_make(argv[1], &settings), "make");
    int udp = socket(AF_INET, SOCK_DGRAM | SOCK_CLOEXEC, 0);
    struct sockaddr_in me = {.sin_family = AF_INET, .sin_port = htons(settings.port)};
    me.sin_addr.s_addr = htonl(LOOPBACK);
    if (udp < 0 || bind(udp, (struct sockaddr *)&me, sizeof me) < 0)
        return perror("bind"), 1;
    must(swim_open(&member, argv[1], &settings, 1), "open");

    struct swim_endpoint seed = {LOOPBACK, (uint16_t)atoi(argv[4])};
    must(swim_seeds(&member, &seed, seed.port != 0, random_word()), "seeds");
    uint64_t next = 0, end = now_ms() + strtoull(argv[5], NULL, 10) * 1000;
    while (now_ms() < end) {
        uint64_t now = now_ms();
        struct pollfd ready = {udp, POLLIN, 0};
        if (poll(&ready, 1, next > now ? (int)(next - now) : 0) > 0)
            receive_all(&member, udp); /* what waits is read before a tick */
        next = advance(&member, udp);
    }

    print_members(&member);
    must(swim_keep_peers(&member), "keep_peers");
    must(swim_leave(&member), "leave");
    send_all(&member, udp);
    must(swim_close(&member), "close");
    close(udp);
    return 0;
}
