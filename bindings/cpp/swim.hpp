// swim.hpp: a member of a SWIM group for C++11 and later, over swim.h and by RAII. It throws swim::Error, and closes where a Member
// ends. Move it as you like; a member is one thread's at a time, and a call that meets another throws (SWIM_BUSY).
#ifndef SWIM_HPP
#define SWIM_HPP

#include "swim.h"

#include <cerrno>
#include <stdexcept>
#include <string>
#include <system_error>
#include <utility>
#include <vector>

namespace swim {

// A code other than SWIM_OK, and errno where the system refused something, else 0.
class Error : public std::runtime_error {
public:
    explicit Error(int code, int number = 0)
        : std::runtime_error(text_of(code, number)), code_(code), errno_(number) {}
    int code() const noexcept { return code_; }
    std::error_code system() const { return std::error_code(errno_, std::generic_category()); }

private:
    static std::string text_of(int code, int number) {
        std::string text = std::string(swim_name(code)) + ": " + swim_text(code);
        return number == 0 ? text : text + " (" + std::generic_category().message(number) + ")";
    }
    int code_, errno_;
};

inline void must(int code) {
    if (code == SWIM_OK)
        return;
    bool has_errno = code == SWIM_FILE || code == SWIM_OPEN_DEVICE || code == SWIM_MAKE_DEVICE || code == SWIM_KEEP_DEVICE;
    throw Error(code, has_errno ? errno : 0);
}

// The defaults of `swim run`, by rules 2, for a member of this group at this address and port, in host order.
inline swim_settings usual(std::uint64_t group, std::uint32_t address, std::uint16_t port) {
    swim_settings settings = SWIM_USUAL_SETTINGS;
    settings.group = group;
    settings.address = address;
    settings.port = port;
    return settings;
}

// Those of a group that `swim up` made: the preset `lan`, with ticks of 50 ms, and rules 2.
inline swim_settings lan(std::uint64_t group, std::uint32_t address, std::uint16_t port) {
    swim_settings settings = SWIM_LAN_SETTINGS;
    settings.group = group;
    settings.address = address;
    settings.port = port;
    return settings;
}

// Makes a state file at a path where nothing is, whole or not at all.
inline void make(const std::string &path, const swim_settings &settings) { must(swim_make(path.c_str(), &settings)); }

// Makes it in the empty file of a descriptor, which is open for reading and writing, without O_APPEND.
inline void make_state(int fd, const swim_settings &settings) { must(swim_make_state(fd, &settings)); }

class Member {
public:
    Member(const std::string &path, const swim_settings &settings, std::uint32_t limit = 1) {
        must(swim_open(&handle_, path.c_str(), &settings, limit));
    }
    // On the file of a descriptor, which stays the caller's to close. It is not locked.
    static Member by_descriptor(int fd, const swim_settings &settings, std::uint32_t limit = 1) {
        Member member;
        must(swim_open_descriptor(&member.handle_, fd, &settings, limit));
        return member;
    }
    // For tests: on a new state file in memory.
    static Member in_memory(const swim_settings &settings, std::uint32_t limit = 1) {
        Member member;
        must(swim_open_memory(&member.handle_, &settings, limit));
        return member;
    }
    Member(Member &&other) noexcept : handle_(other.handle_) { other.handle_ = closed(); }
    Member &operator=(Member &&other) noexcept {
        if (this != &other) {
            swim_close(&handle_);
            handle_ = other.handle_;
            other.handle_ = closed();
        }
        return *this;
    }
    Member(const Member &) = delete;
    Member &operator=(const Member &) = delete;
    ~Member() { swim_close(&handle_); }

    void tick(std::uint64_t random) { must(swim_tick(&handle_, random)); }
    // Makes one tick if one is due by the program's clock, in milliseconds, joins whom the seeds call for, and answers when to call again.
    // Late ticks are skipped.
    std::uint64_t advance(std::uint64_t now_ms, std::uint64_t random) {
        std::uint64_t next;
        must(swim_advance(&handle_, now_ms, random, &next));
        return next;
    }
    void receive(swim_endpoint from, const void *bytes, std::size_t length) {
        must(swim_receive(&handle_, from, static_cast<const std::uint8_t *>(bytes), length));
    }
    void receive_failed() { must(swim_receive_failed(&handle_)); }
    void send_failed(std::uint32_t count) { must(swim_send_failed(&handle_, count)); }
    // Whom the program knows of its group: advance joins them, and those that the state file stored, from now on.
    void seeds(const std::vector<swim_endpoint> &all, std::uint64_t random) {
        must(swim_seeds(&handle_, all.data(), all.size(), random));
    }
    void join(swim_endpoint peer) { must(swim_join(&handle_, peer)); }
    void leave() { must(swim_leave(&handle_)); }
    void keep_peers() { must(swim_keep_peers(&handle_)); }

    // Gives each datagram that waits to `send(to, bytes, length)`, which says whether it was sent. Those that were not are noted.
    template <class Send> void send_all(Send &&send) {
        std::uint8_t bytes[SWIM_DATAGRAM_MAX];
        swim_endpoint to;
        std::size_t length;
        std::uint32_t lost = 0;
        int code;
        while ((code = swim_next_datagram(&handle_, &to, bytes, sizeof bytes, &length)) == SWIM_OK)
            lost += send(to, static_cast<const std::uint8_t *>(bytes), length) ? 0 : 1;
        if (code != SWIM_NOTHING)
            must(code);
        if (lost > 0)
            send_failed(lost);
    }

    std::vector<swim_row> members() const {
        std::vector<swim_row> rows(SWIM_MEMBERS_MAX);
        std::size_t count;
        must(swim_members(&handle_, rows.data(), rows.size(), &count));
        rows.resize(count);
        return rows;
    }
    // Gives each change of what is held of a member to `tell(row, was)`, as swim_next_change has them.
    template <class Tell> void tell_changes(Tell &&tell) {
        swim_row row, was;
        int code;
        while ((code = swim_next_change(&handle_, &row, &was)) == SWIM_OK)
            tell(static_cast<const swim_row &>(row), static_cast<const swim_row &>(was));
        if (code != SWIM_NOTHING)
            must(code);
    }
    swim_status status() const {
        swim_status status;
        must(swim_get_status(&handle_, &status));
        return status;
    }
    // Each a number of enum swim_note.
    std::vector<int> notes() const {
        std::uint8_t notes[SWIM_NOTES_MAX];
        std::size_t count;
        must(swim_notes(&handle_, notes, &count));
        return std::vector<int>(notes, notes + count);
    }
    std::vector<swim_endpoint> stored_peers() const {
        std::vector<swim_endpoint> peers(SWIM_PEERS_MAX);
        std::size_t count;
        must(swim_stored_peers(&handle_, peers.data(), &count));
        peers.resize(count);
        return peers;
    }

private:
    Member() noexcept {}
    static swim_member closed() noexcept {
        swim_member member = SWIM_CLOSED_MEMBER;
        return member;
    }
    swim_member handle_ = closed();
};

} // namespace swim

#endif
