// What crates/own_client does, from C++; and that the orders at a best price have its shares.
#include "pitch_client.hpp"

#include <cstdio>
#include <iostream>
#include <iterator>
#include <string>

static std::string shown(const std::optional<pitch_best_out> &best) {
    if (!best) return "none";
    std::string cents = std::to_string(best->price % 10000);
    return std::to_string(best->shares) + " at " + std::to_string(best->price / 10000) + "." +
           std::string(4 - cents.size(), '0') + cents;
}

// The best price, whose shares have to be those of the open orders there.
static std::optional<pitch_best_out> best_of(pitch::Client &client, uint32_t unit, char side) {
    std::optional<pitch_best_out> best = client.best(unit, "ACME", side);
    if (!best) return best;
    uint64_t shares = 0;
    for (const pitch_order_out &order : client.orders(unit))
        if (order.side == static_cast<uint32_t>(side) && order.price == best->price &&
            std::string(order.symbol, order.symbol + 8) == "ACME    ")
            shares += order.quantity;
    if (shares != best->shares) throw std::runtime_error("a best price has other shares");
    return best;
}

int main() try {
    std::vector<char> feed{ std::istreambuf_iterator<char>(std::cin), {} };
    pitch::Client client(4096);
    for (size_t at = 0; at < feed.size();)
        at += client.hear(reinterpret_cast<uint8_t *>(feed.data()) + at, feed.size() - at).used;
    for (uint32_t unit = 0; unit < 256; unit++) {
        std::optional<pitch_status_out> status = client.status(unit);
        if (!status) continue;
        std::cout << "unit " << unit << " " << pitch_state_word(status->state) << " at "
                  << status->reach << ": bid " << shown(best_of(client, unit, 'B')) << ", offer "
                  << shown(best_of(client, unit, 'S')) << "\n";
    }
} catch (const std::exception &error) {
    std::fprintf(stderr, "%s\n", error.what());
    return 3;
}
