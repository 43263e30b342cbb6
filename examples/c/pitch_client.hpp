// The clients of a feed, and an end with its sessions, as classes of C++17 over the headers for C.
// Each closes what it opened, and may be moved but not copied: what was moved from is closed. A
// call that has no answer throws an Error. What pitch_client.h says of calls and threads holds too.
#ifndef PITCH_CLIENT_HPP
#define PITCH_CLIENT_HPP

#include "pitch_end.h"

#include <algorithm>
#include <optional>
#include <stdexcept>
#include <string_view>
#include <utility>
#include <vector>

namespace pitch {

// Why a call had no answer: its code is a pitch_code.
class Error : public std::runtime_error {
public:
    explicit Error(uint32_t code) : std::runtime_error(pitch_strerror(code)), code_(code) {}
    uint32_t code() const noexcept { return code_; }

private:
    uint32_t code_;
};

inline void must(uint32_t code) {
    if (code != PITCH_OK) throw Error(code);
}

// A name with spaces at its end, in so many bytes.
template <size_t N> struct Padded {
    uint8_t bytes[N];

    Padded(std::string_view name) {
        if (name.size() > N) throw std::invalid_argument("a name is too long");
        std::fill(std::copy(name.begin(), name.end(), bytes), bytes + N, uint8_t{ ' ' });
    }
    Padded(const char *name) : Padded(std::string_view(name)) {}
};

using Symbol = Padded<8>;

// All items of a list, by a call that fills an array and tells how many there are.
template <class T, class Call> std::vector<T> listed(Call call) {
    uint64_t number = 0;
    must(call(static_cast<T *>(nullptr), size_t{ 0 }, &number));
    std::vector<T> told(static_cast<size_t>(number));
    must(call(told.data(), told.size(), &number));
    return told;
}

// The clients of all units of a feed. A side is 'B' or 'S'.
class Client {
public:
    explicit Client(uint32_t hold = 4096, bool levels = true) {
        must(pitch_open(&raw_, hold, levels));
    }
    ~Client() { pitch_close(&raw_); }
    Client(Client &&other) noexcept { std::swap(raw_, other.raw_); }
    Client &operator=(Client &&other) noexcept {
        Client(std::move(other)).swap(*this);
        return *this;
    }
    void swap(Client &other) noexcept { std::swap(raw_, other.raw_); }

    // The block at the start of the bytes.
    pitch_heard_out hear(const uint8_t *bytes, size_t len) {
        pitch_heard_out told;
        must(pitch_hear(&raw_, bytes, len, &told));
        return told;
    }
    // The same, and its quotes, as many as fit. How many there are, or none where the block was
    // heard and there was no memory to tell them.
    std::optional<uint64_t> hear_quoted(const uint8_t *bytes, size_t len, pitch_heard_out &told,
                                        pitch_quote_out *quotes, size_t room) {
        uint64_t number = 0;
        uint32_t code = pitch_hear_quoted(&raw_, bytes, len, &told, quotes, room, &number);
        if (code == PITCH_UNTOLD) return std::nullopt;
        must(code);
        return number;
    }
    void reserve(uint32_t unit, uint32_t messages) { must(pitch_reserve(&raw_, unit, messages)); }

    // None where no block named the unit.
    std::optional<pitch_status_out> status(uint32_t unit) {
        pitch_status_out told;
        uint32_t code = pitch_status(&raw_, unit, &told);
        if (code == PITCH_NO_CLIENT) return std::nullopt;
        must(code);
        return told;
    }
    // None where the side is empty.
    std::optional<pitch_best_out> best(uint32_t unit, const Symbol &symbol, char side) {
        pitch_best_out told;
        must(pitch_best(&raw_, unit, symbol.bytes, static_cast<uint8_t>(side), &told));
        return told.there ? std::optional(told) : std::nullopt;
    }
    // None where no order of the id is open.
    std::optional<pitch_order_out> order(uint32_t unit, uint64_t id) {
        pitch_order_out told;
        must(pitch_order(&raw_, unit, id, &told));
        return told.there ? std::optional(told) : std::nullopt;
    }
    std::vector<pitch_order_out> orders(uint32_t unit) {
        return listed<pitch_order_out>([&](pitch_order_out *told, size_t len, uint64_t *number) {
            return pitch_orders(&raw_, unit, told, len, number);
        });
    }
    std::vector<pitch_state_out> states(uint32_t unit) {
        return listed<pitch_state_out>([&](pitch_state_out *told, size_t len, uint64_t *number) {
            return pitch_states(&raw_, unit, told, len, number);
        });
    }
    // The best first.
    std::vector<pitch_level_out> levels(uint32_t unit, const Symbol &symbol, char side) {
        return listed<pitch_level_out>([&](pitch_level_out *told, size_t len, uint64_t *number) {
            return pitch_levels(&raw_, unit, symbol.bytes, static_cast<uint8_t>(side), told, len,
                                number);
        });
    }
    // The shares at a price, in ten-thousandths of a dollar.
    uint64_t level(uint32_t unit, const Symbol &symbol, char side, uint64_t price) {
        pitch_level_out told;
        must(pitch_level(&raw_, unit, symbol.bytes, static_cast<uint8_t>(side), price, &told));
        return told.shares;
    }

private:
    pitch_client raw_ = PITCH_CLIENT_INIT;
};

// The client's end of a unit with its sessions.
class End {
public:
    End(uint32_t unit, const Padded<4> &sub, const Padded<4> &user, const Padded<10> &password,
        uint32_t hold = 4096) {
        must(pitch_end_open(&raw_, unit, sub.bytes, user.bytes, password.bytes, hold));
    }
    ~End() { pitch_end_close(&raw_); }
    End(End &&other) noexcept { std::swap(raw_, other.raw_); }
    End &operator=(End &&other) noexcept {
        End(std::move(other)).swap(*this);
        return *this;
    }
    void swap(End &other) noexcept { std::swap(raw_, other.raw_); }

    pitch_datagram_out hear(const uint8_t *bytes, size_t len) {
        pitch_datagram_out told;
        must(pitch_end_hear(&raw_, bytes, len, &told));
        return told;
    }
    void connected(pitch_session session) { must(pitch_end_connected(&raw_, session)); }
    // The connection is lost where there was no memory.
    void took(pitch_session session, const uint8_t *bytes, size_t len) {
        must(pitch_end_took(&raw_, session, bytes, len));
    }
    void cut(pitch_session session) { must(pitch_end_cut(&raw_, session)); }
    // Both connections are lost where there was no memory.
    void second() { must(pitch_end_second(&raw_)); }
    pitch_sent_out send(pitch_session session, uint8_t *into, size_t len) {
        pitch_sent_out told;
        must(pitch_end_send(&raw_, session, into, len, &told));
        return told;
    }
    bool connection(pitch_session session) {
        uint32_t told;
        must(pitch_end_connection(&raw_, session, &told));
        return told != 0;
    }
    pitch_status_out status() {
        pitch_status_out told;
        must(pitch_end_status(&raw_, &told));
        return told;
    }
    std::optional<pitch_best_out> best(const Symbol &symbol, char side) {
        pitch_best_out told;
        must(pitch_end_best(&raw_, symbol.bytes, static_cast<uint8_t>(side), &told));
        return told.there ? std::optional(told) : std::nullopt;
    }
    std::optional<pitch_order_out> order(uint64_t id) {
        pitch_order_out told;
        must(pitch_end_order(&raw_, id, &told));
        return told.there ? std::optional(told) : std::nullopt;
    }
    std::vector<pitch_order_out> orders() {
        return listed<pitch_order_out>([&](pitch_order_out *told, size_t len, uint64_t *number) {
            return pitch_end_orders(&raw_, told, len, number);
        });
    }
    std::vector<pitch_state_out> states() {
        return listed<pitch_state_out>([&](pitch_state_out *told, size_t len, uint64_t *number) {
            return pitch_end_states(&raw_, told, len, number);
        });
    }
    // The best first.
    std::vector<pitch_level_out> levels(const Symbol &symbol, char side) {
        return listed<pitch_level_out>([&](pitch_level_out *told, size_t len, uint64_t *number) {
            return pitch_end_levels(&raw_, symbol.bytes, static_cast<uint8_t>(side), told, len,
                                    number);
        });
    }
    // The shares at a price, in ten-thousandths of a dollar.
    uint64_t level(const Symbol &symbol, char side, uint64_t price) {
        pitch_level_out told;
        must(pitch_end_level(&raw_, symbol.bytes, static_cast<uint8_t>(side), price, &told));
        return told.shares;
    }

private:
    pitch_end raw_ = PITCH_END_INIT;
};

} // namespace pitch

#endif
