// The calls that the archives export, each with the same call by hand: tests and times that take either are written over these.
#pragma once
#include "plain.hpp"
#include "plain_writer.hpp"

#include "r3.h"

constexpr size_t longest_input = 1 << 19; // no accepted input is longer

struct Routing : plain::Router {
    static constexpr auto exported = r3_route;
    static constexpr size_t most_bytes = R3_BYTES; // that a call may ask for
    template <class... Lent> plain::Answer by_hand(Lent... lent) { return route(lent...); }
};

struct Writing : plain::Writer {
    static constexpr auto exported = r3_write_map;
    static constexpr size_t most_bytes = longest_input;
    template <class... Lent> plain::Answer by_hand(Lent... lent) { return write(lent...); }
};
