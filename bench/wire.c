/* A switch with delay and loss, behind which each of a group has a network namespace of its own.

       wire DELAY JITTER LOSS SEED ADDRESS..

   For each address it makes a namespace with a TUN device that has it, in one network of 256 addresses with the others, and with an own
   loopback device. A packet that goes to another of these addresses comes there DELAY microseconds later, and by a time that is drawn up
   to JITTER more. Of 100 packets LOSS never come, as the seed draws them. It prints `ready` once all is there. The namespace of the first
   address is then its descriptor 100, that of the next one 101 and so on, by which others enter them (/proc/PID/fd/100). For each line
   on its standard input it prints how many packets and how many bytes were sent so far, of how many packets it made loss, and by how many
   microseconds the one that came latest was late. It ends with its standard input. A namespace ends once nobody is in it. */
#define _GNU_SOURCE
#include <arpa/inet.h>
#include <fcntl.h>
#include <linux/if_tun.h>
#include <net/if.h>
#include <poll.h>
#include <sched.h>
#include <stdint.h>
#include <stdio.h>
#include <stdlib.h>
#include <string.h>
#include <sys/ioctl.h>
#include <sys/prctl.h>
#include <sys/resource.h>
#include <sys/socket.h>
#include <time.h>
#include <unistd.h>

enum { FIRST = 100, MOST = 90, LARGEST = 2048, WAITING = 1 << 16, HEAD = 20, SOURCE = 12, TARGET = 16, MICROSECOND = 1000, SECOND = 1000000000 };

/* A packet that waits until it is due. The number keeps the order of those that are due at once. */
struct packet {
    int64_t due;
    uint64_t number;
    int to, size;
    uint8_t data[];
};

static int tuns[MOST], count;
static uint32_t addresses[MOST]; /* as packets have them */
static struct packet *heap[WAITING];
static int waiting;
static int64_t delay, jitter, loss;
static uint64_t drawn, packets, bytes, lost;
static int64_t latest;

static void fail(const char *what) {
    perror(what);
    exit(1);
}

static int64_t now(void) {
    struct timespec time;
    clock_gettime(CLOCK_MONOTONIC, &time);
    return time.tv_sec * (int64_t)SECOND + time.tv_nsec;
}

/* The next of the words that the seed gives (splitmix64). */
static uint64_t draw(void) {
    uint64_t word = drawn += 0x9e3779b97f4a7c15;
    word = (word ^ word >> 30) * 0xbf58476d1ce4e5b9;
    word = (word ^ word >> 27) * 0x94d049bb133111eb;
    return word ^ word >> 31;
}

/* The namespaces. */

static void set_up(int udp, const char *name) {
    struct ifreq device = {0};
    strcpy(device.ifr_name, name);
    if (ioctl(udp, SIOCGIFFLAGS, &device))
        fail(name);
    device.ifr_flags |= IFF_UP | IFF_RUNNING;
    if (ioctl(udp, SIOCSIFFLAGS, &device))
        fail(name);
}

static void give(int udp, const char *name, unsigned long what, uint32_t address) {
    struct ifreq device = {0};
    struct sockaddr_in at = {.sin_family = AF_INET, .sin_addr.s_addr = address};
    strcpy(device.ifr_name, name);
    memcpy(&device.ifr_addr, &at, sizeof at);
    if (ioctl(udp, what, &device))
        fail(name);
}

/* A namespace with this address, in which this process is then. */
static void make(int place, const char *address) {
    static const char name[] = "wire";
    struct ifreq device = {.ifr_flags = IFF_TUN | IFF_NO_PI};
    if (inet_pton(AF_INET, address, &addresses[place]) != 1)
        fail(address);
    if (unshare(CLONE_NEWNET))
        fail("unshare");
    int space = open("/proc/self/ns/net", O_RDONLY), udp = socket(AF_INET, SOCK_DGRAM, 0);
    if (space < 0 || dup2(space, FIRST + place) < 0 || close(space) || udp < 0)
        fail("namespace");
    tuns[place] = open("/dev/net/tun", O_RDWR | O_NONBLOCK);
    strcpy(device.ifr_name, name);
    if (tuns[place] < 0 || ioctl(tuns[place], TUNSETIFF, &device))
        fail("/dev/net/tun");
    set_up(udp, "lo");
    give(udp, name, SIOCSIFADDR, addresses[place]);
    give(udp, name, SIOCSIFNETMASK, htonl(0xffffff00));
    set_up(udp, name);
    close(udp);
}

/* The packets that wait, the one that is due first on top. */

static int is_before(const struct packet *a, const struct packet *b) {
    return a->due != b->due ? a->due < b->due : a->number < b->number;
}

static void push(struct packet *packet) {
    int at = waiting++;
    for (int up; at && is_before(packet, heap[up = (at - 1) / 2]); at = up)
        heap[at] = heap[up];
    heap[at] = packet;
}

static struct packet *pop(void) {
    struct packet *first = heap[0], *last = heap[--waiting];
    int at = 0;
    for (int down; (down = 2 * at + 1) < waiting; at = down) {
        down += down + 1 < waiting && is_before(heap[down + 1], heap[down]);
        if (!is_before(heap[down], last))
            break;
        heap[at] = heap[down];
    }
    heap[at] = last;
    return first;
}

static int place_of(const uint8_t *address) {
    for (int place = 0; place < count; place++)
        if (!memcmp(address, &addresses[place], sizeof *addresses))
            return place;
    return -1;
}

/* A packet of IPv4 that goes to one of the group waits from now on, if it is not lost. */
static void take(const uint8_t *data, int size) {
    if (size < HEAD || data[0] >> 4 != 4 || place_of(data + SOURCE) < 0)
        return;
    int to = place_of(data + TARGET);
    if (to < 0)
        return;
    packets++, bytes += size;
    int is_lost = draw() % 100 < (uint64_t)loss;
    int64_t more = jitter ? (int64_t)(draw() % (jitter + 1)) : 0;
    struct packet *packet = is_lost || waiting == WAITING ? 0 : malloc(sizeof *packet + size);
    if (!packet) {
        lost++;
        return;
    }
    *packet = (struct packet){.due = now() + delay + more, .number = packets, .to = to, .size = size};
    memcpy(packet->data, data, size);
    push(packet);
}

/* What is due comes. A packet for which a device has no room is lost, as it would be elsewhere. */
static void hand_on(void) {
    for (int64_t time; waiting && heap[0]->due <= (time = now());) {
        struct packet *packet = pop();
        if (time - packet->due > latest)
            latest = time - packet->due;
        lost += write(tuns[packet->to], packet->data, packet->size) != packet->size;
        free(packet);
    }
}

/* What the namespaces send is taken, until standard input ends. */
static void serve(void) {
    struct pollfd polled[MOST + 1] = {{.fd = STDIN_FILENO, .events = POLLIN}};
    uint8_t data[LARGEST];
    for (int place = 0; place < count; place++)
        polled[place + 1] = (struct pollfd){.fd = tuns[place], .events = POLLIN};
    for (;;) {
        int64_t left = waiting ? heap[0]->due - now() : SECOND;
        struct timespec rest = {.tv_sec = left / SECOND, .tv_nsec = left % SECOND};
        if (left < 0)
            rest = (struct timespec){0};
        if (ppoll(polled, count + 1, &rest, 0) < 0)
            fail("ppoll");
        for (int place = 0; place < count; place++)
            for (int size; (size = read(tuns[place], data, sizeof data)) > 0;)
                take(data, size);
        hand_on();
        if (polled[0].revents) {
            if (read(STDIN_FILENO, data, 1) <= 0)
                return;
            printf("%lu %lu %lu %lu\n", packets, bytes, lost, latest / MICROSECOND);
            fflush(stdout);
        }
    }
}

int main(int words, char **word) {
    if (words < 6 || words - 5 > MOST)
        return 2;
    delay = atoll(word[1]) * MICROSECOND, jitter = atoll(word[2]) * MICROSECOND;
    loss = atoll(word[3]), drawn = strtoull(word[4], 0, 10), count = words - 5;
    for (int place = 0; place < count; place++)
        make(place, word[place + 5]);
    /* it is not to wait for those whom it serves, nor for other work */
    struct sched_param first = {.sched_priority = 1};
    if (sched_setscheduler(0, SCHED_FIFO, &first) && setpriority(PRIO_PROCESS, 0, -20))
        fail("priority");
    prctl(PR_SET_TIMERSLACK, 1);
    puts("ready");
    fflush(stdout);
    serve();
    return 0;
}
