/* A load of pings over loopback, and an echo to compare with.

       load PORT GROUP RULES WINDOW SECONDS UPDATES
       load echo PORT

   The first sends pings to a member at 127.0.0.1:PORT, so many of them under way at any moment, each with so many updates about
   members that change. It prints on one line the answers a second, the median and the 99th hundredth of the microseconds there
   and back, and how many pings were not answered within a fifth of a second. An echo answers each by its own bytes, as fast as a
   program on this machine may. It ends where it is sent a single byte. */
#include <arpa/inet.h>
#include <stdint.h>
#include <stdio.h>
#include <stdlib.h>
#include <string.h>
#include <sys/socket.h>
#include <sys/time.h>
#include <time.h>

enum { HEAD = 32, UPDATE = 16, DATAGRAM = 600, PING = 1, ACK = 3, ALIVE = 1, SEQUENCES = 1 << 16, TIMES = 1 << 22 };

static double now(void) {
    struct timespec time;
    clock_gettime(CLOCK_MONOTONIC, &time);
    return time.tv_sec + time.tv_nsec * 1e-9;
}

static void put(uint8_t *at, uint64_t value, int size) {
    for (int byte = size - 1; byte >= 0; byte--, value >>= 8)
        at[byte] = value;
}

static int by_size(const void *a, const void *b) {
    double x = *(const double *)a, y = *(const double *)b;
    return x < y ? -1 : x > y;
}

static int echo(int udp) {
    uint8_t data[DATAGRAM];
    for (;;) {
        struct sockaddr_in from;
        socklen_t size = sizeof from;
        ssize_t count = recvfrom(udp, data, sizeof data, 0, (void *)&from, &size);
        if (count == 1)
            return 0;
        if (count > 0)
            sendto(udp, data, count, 0, (void *)&from, size);
    }
}

/* What is sent: the head of a ping from this socket, and room for its updates. */
static void fill(uint8_t *data, int rules, uint64_t group, int port, int to, int updates) {
    memset(data, 0, DATAGRAM);
    memcpy(data, "SWIM", 4);
    data[4] = rules, data[5] = PING, data[6] = updates;
    put(data + 8, group, 8);
    put(data + 20, INADDR_LOOPBACK, 4), put(data + 24, port, 2);
    put(data + 26, INADDR_LOOPBACK, 4), put(data + 30, to, 2);
}

static void number(uint8_t *data, uint32_t sequence, int updates) {
    put(data + 16, sequence, 4);
    for (int place = 0; place < updates; place++) {
        uint8_t *update = data + HEAD + UPDATE * place;
        update[0] = ALIVE, update[1] = 0;
        put(update + 2, 0x0a000001 + place + (sequence % 7) * 30, 4), put(update + 6, 7000, 2);
        put(update + 8, 1 + sequence / 7, 8);
    }
}

static int load(int udp, int port, char **words) {
    int window = atoi(words[3]), updates = atoi(words[5]), under_way = 0;
    double began = now(), end = began + atof(words[4]);
    static double sent[SEQUENCES], took[TIMES];
    uint32_t sequence = 0, answers = 0, lost = 0;
    uint8_t data[DATAGRAM], answer[DATAGRAM];
    fill(data, atoi(words[2]), strtoull(words[1], 0, 10), port, atoi(words[0]), updates);
    while (now() < end) {
        for (; under_way < window; under_way++) {
            number(data, ++sequence, updates);
            sent[sequence % SEQUENCES] = now();
            if (send(udp, data, HEAD + UPDATE * updates, 0) < 0)
                break;
        }
        ssize_t count = recv(udp, answer, sizeof answer, 0);
        if (count < HEAD) {
            lost += under_way, under_way = 0;
            continue;
        }
        int is_own = answer[5] == PING && !memcmp(answer + 20, data + 20, 6); /* the echo's */
        if (answer[5] != ACK && !is_own)
            continue;
        uint32_t of = answer[16] << 24 | answer[17] << 16 | answer[18] << 8 | answer[19];
        under_way--;
        if (answers < TIMES)
            took[answers++] = now() - sent[of % SEQUENCES];
    }
    double seconds = now() - began;
    qsort(took, answers, sizeof *took, by_size);
    printf("%.0f %.1f %.1f %u\n", answers / seconds, took[answers / 2] * 1e6, took[answers - 1 - answers / 100] * 1e6, lost);
    return 0;
}

int main(int count, char **words) {
    int udp = socket(AF_INET, SOCK_DGRAM, 0), is_echo = count == 3 && !strcmp(words[1], "echo"), room = 4 << 20;
    struct sockaddr_in at = {.sin_family = AF_INET, .sin_addr.s_addr = htonl(INADDR_LOOPBACK)};
    struct timeval patience = {.tv_usec = 200000};
    socklen_t size = sizeof at;
    if (!is_echo && count != 7)
        return 2;
    at.sin_port = is_echo ? htons(atoi(words[2])) : 0;
    if (bind(udp, (void *)&at, sizeof at))
        return 1;
    if (is_echo)
        return echo(udp);
    getsockname(udp, (void *)&at, &size);
    int port = ntohs(at.sin_port);
    at.sin_port = htons(atoi(words[1]));
    setsockopt(udp, SOL_SOCKET, SO_RCVTIMEO, &patience, sizeof patience);
    setsockopt(udp, SOL_SOCKET, SO_RCVBUF, &room, sizeof room);
    return connect(udp, (void *)&at, sizeof at) ? 1 : load(udp, port, words + 1);
}
