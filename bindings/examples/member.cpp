// A member in C++: `member STATE-FILE GROUP PORT PEER-PORT SECONDS`, on loopback alone, as member.c: also in that only a trial may make a
// state file where there is none.
#include "swim.hpp"

#include <arpa/inet.h>
#include <chrono>
#include <cstdlib>
#include <iostream>
#include <poll.h>
#include <random>
#include <sys/socket.h>
#include <unistd.h>

using Clock = std::chrono::steady_clock;

const std::chrono::milliseconds LATE(100); // that a tick may be late for what waits at the socket
const std::uint32_t LOOPBACK = 0x7f000001;

class Host {
public:
    Host(swim::Member member, int udp) : member_(std::move(member)), udp_(udp) {}

    // From these seeds, and from whom an earlier life knew, the library looks for the group.
    void run(const std::vector<swim_endpoint> &seeds, Clock::time_point end) {
        member_.seeds(seeds, random_());
        while (Clock::now() < end)
            receive_until(Clock::time_point(std::chrono::milliseconds(advance())));
    }

    void leave() {
        member_.keep_peers();
        member_.leave();
        send_all();
    }

    const swim::Member &member() const { return member_; }

private:
    // Makes the tick that is due, if one is, joins whom it is time to join, and gives when to come again.
    std::uint64_t advance() {
        auto now = std::chrono::duration_cast<std::chrono::milliseconds>(Clock::now().time_since_epoch());
        std::uint64_t next = member_.advance(std::uint64_t(now.count()), random_());
        send_all();
        return next;
    }

    // Hands in what waits, and what comes until then.
    void receive_until(Clock::time_point due) {
        while (Clock::now() < due + LATE) {
            auto left = std::chrono::duration_cast<std::chrono::milliseconds>(due - Clock::now()).count();
            pollfd ready = {udp_, POLLIN, 0};
            if (poll(&ready, 1, left > 0 ? int(left) + 1 : 0) <= 0) {
                if (Clock::now() >= due)
                    return;
                continue;
            }
            std::uint8_t bytes[SWIM_DATAGRAM_MAX + 1];
            sockaddr_in at = {};
            socklen_t size = sizeof at;
            ssize_t length = recvfrom(udp_, bytes, sizeof bytes, MSG_DONTWAIT, reinterpret_cast<sockaddr *>(&at), &size);
            if (length >= 0)
                member_.receive({ntohl(at.sin_addr.s_addr), ntohs(at.sin_port)}, bytes, std::size_t(length));
            send_all();
        }
    }

    void send_all() {
        member_.send_all([this](swim_endpoint to, const std::uint8_t *bytes, std::size_t length) {
            sockaddr_in at = {};
            at.sin_family = AF_INET;
            at.sin_port = htons(to.port);
            at.sin_addr.s_addr = htonl(to.address);
            return sendto(udp_, bytes, length, 0, reinterpret_cast<sockaddr *>(&at), sizeof at) >= 0;
        });
    }

    swim::Member member_;
    int udp_;
    std::mt19937_64 random_{std::random_device{}()};
};

static int run(char **words) {
    swim_settings settings = swim::usual(std::strtoull(words[2], nullptr, 10), LOOPBACK, std::uint16_t(std::atoi(words[3])));
    int udp = socket(AF_INET, SOCK_DGRAM | SOCK_CLOEXEC, 0);
    sockaddr_in me = {};
    me.sin_family = AF_INET;
    me.sin_port = htons(settings.port);
    me.sin_addr.s_addr = htonl(LOOPBACK);
    if (udp < 0 || bind(udp, reinterpret_cast<sockaddr *>(&me), sizeof me) < 0)
        throw std::system_error(errno, std::generic_category(), "bind");
    if (access(words[1], F_OK) != 0)
        swim::make(words[1], settings);
    swim::Member member(words[1], settings);
    std::vector<swim_endpoint> seeds;
    if (std::uint16_t peer = std::uint16_t(std::atoi(words[4])))
        seeds.push_back({LOOPBACK, peer});
    Host host(std::move(member), udp);
    host.run(seeds, Clock::now() + std::chrono::seconds(std::atoll(words[5])));
    static const char *const kinds[] = {"?", "alive", "suspect", "confirm"};
    for (const swim_row &row : host.member().members())
        std::cout << kinds[row.kind] << " 127.0.0.1:" << row.port << " " << row.number << "\n";
    host.leave();
    close(udp);
    return 0;
}

int main(int argc, char **words) {
    if (argc != 6) {
        std::cerr << "member STATE-FILE GROUP PORT PEER-PORT SECONDS\n";
        return 2;
    }
    try {
        return run(words);
    } catch (const std::exception &error) {
        std::cerr << error.what() << "\n";
        return 1;
    }
}
