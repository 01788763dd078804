// The classes of fttcan.hpp: what each call answers, what it throws, and that what was moved from holds nothing.
#include "fttcan.hpp"

#include <cstdio>
#include <type_traits>

namespace {

int wrong = 0;

#define WANT(what) \
    do { \
        if (!(what)) { \
            std::printf("%s:%d: %s\n", __FILE__, __LINE__, #what); \
            wrong++; \
        } \
    } while (false)

/// Whether a call throws this, and what it holds of it.
template <class Fault, class Call, class Holds> bool throws(Call call, Holds holds) {
    try {
        call();
    } catch (const Fault &fault) {
        return holds(fault);
    }
    return false;
}
template <class Fault, class Call> bool throws(Call call) {
    return throws<Fault>(call, [](const Fault &) { return true; });
}

static_assert(!std::is_copy_constructible<fttcan::master>::value, "a master is not copied");
static_assert(!std::is_copy_assignable<fttcan::standby>::value, "a standby is not copied");
static_assert(std::is_nothrow_move_constructible<fttcan::master>::value, "a master is moved");
static_assert(std::is_nothrow_move_assignable<fttcan::planned>::value, "a planned change is moved");
static_assert(!std::is_copy_constructible<fttcan::node>::value, "a node is not copied");
static_assert(std::is_nothrow_move_assignable<fttcan::node>::value, "a node is moved");
static_assert(sizeof(fttcan::snapshot) == sizeof(void *), "a snapshot is its handle");

const fttcan_rules rules = {10000, 540, 5, 40, FTTCAN_RM, FTTCAN_PREFIX};
const fttcan_op first = {FTTCAN_ADD, {0, 2, 1, 5, 1, 8, 0}};

void of_master() {
    fttcan::master m(rules);
    const fttcan::accepted answer = m.submit(1, 0, {first});
    WANT(answer.first == 0 && answer.length == 2);
    WANT(fttcan::has(m.upcoming(), 5) && !fttcan::has(m.upcoming(), 6) && !fttcan::has(m.upcoming(), 200));
    WANT(m.open().window == 135 && m.next() == 1 && m.look(8) == 1);
    WANT(m.rules().window == 540 && m.rules().slots == 40);
    WANT(m.table().size() == 1 && m.table()[0].entry.slot == 5);
    WANT((throws<fttcan::malformed>([&] { m.submit(1, 2, {first}); },
                                    [](const fttcan::malformed &f) { return f.op == 0 && f.why == 10 && !f.is_known; })));
    fttcan_op other = first;
    other.entry.slot = 6;
    WANT((throws<fttcan::passed>([&] { m.submit(1, 0, {other}); },
                                 [](const fttcan::passed &f) { return f.start == 0 && f.next == 1; })));
    WANT(throws<fttcan::bad_argument>([&] { m.submit(9, 2, {other}); }));
    WANT(throws<fttcan::bad_argument>([&] { m.look(0); }));
    fttcan_rules bad = rules;
    bad.nodes = 0;
    WANT(throws<fttcan::bad_argument>([&] { fttcan::master none(bad); }));
    const std::string text = m.certificate();
    fttcan::check(m.table(), rules.window, text);
    WANT((throws<fttcan::plan_refused>([&] { fttcan::check(m.table(), 134, text); },
                                       [](const fttcan::plan_refused &f) { return f.breach.kind == 2; })));
    WANT((throws<fttcan::bad_text>([&] { fttcan::check(m.table(), 135, "fttcan"); },
                                   [](const fttcan::bad_text &f) { return f.place == 1; })));
    fttcan::master moved = std::move(m);
    WANT(moved && moved.open().cycle == 1);
    WANT(!m && throws<fttcan::closed>([&] { m.open(); }));
    m = fttcan::master::restored(moved.saved());
    WANT(m.open().cycle == 2 && moved.open().cycle == 2);
    WANT(throws<fttcan::bad_text>([] { fttcan::master::restored({}); }));
}

void of_miss() {
    const fttcan_rules narrow = {10000, 135, 1, 40, FTTCAN_RM, FTTCAN_PREFIX};
    fttcan::master m(narrow);
    std::vector<fttcan_op> ops;
    for (std::uint8_t slot = 0; slot < 4; slot++)
        ops.push_back({FTTCAN_ADD, {0, std::uint16_t(3 + slot), std::uint16_t(3 + slot), slot, 0, 8, 0}});
    WANT((throws<fttcan::missed>([&] { m.submit(1, 0, ops); }, [](const fttcan::missed &f) {
        return f.slot == 3 && f.release == 0 && f.cycle == 5 && f.trail.size() == 6 && f.trail[5].low == 4
            && std::string(f.what()) == "miss: slot 3, released in cycle 0, would not be sent by cycle 5, its last one";
    })));
    WANT(m.answer(1, 0, ops).kind == FTTCAN_MISSED && m.trail().size() == 6);
    const fttcan_op long_ones[2] = {{FTTCAN_ADD, {0, 101, 101, 0, 0, 0, 0}}, {FTTCAN_ADD, {0, 103, 103, 1, 0, 0, 0}}};
    WANT((throws<fttcan::no_repeat>([&] { m.submit(1, 0, long_ones); },
                                    [](const fttcan::no_repeat &f) { return f.from == 0 && f.walked == 10000; })));
    WANT(throws<fttcan::refused>([&] { m.submit(1, 0, long_ones); }));
    WANT(throws<std::runtime_error>([&] { m.submit(1, 0, long_ones); }));
}

void of_apart() {
    fttcan::master m(rules);
    fttcan::planned change = m.apart().plan(4, {first});
    WANT(change.verdict().kind == FTTCAN_ACCEPTED);
    m.open();
    WANT(m.settle(2, std::move(change)).first == 4);
    WANT(!change && throws<fttcan::closed>([&] { change.verdict(); }));
    WANT(throws<fttcan::closed>([&] { m.settle(2, std::move(change)); }));
    fttcan::planned other = m.apart().plan(9, {first});
    WANT(throws<fttcan::bad_argument>([&] { m.settle(9, std::move(other)); }) && other);
    WANT((throws<fttcan::malformed>([&] { m.settle(2, std::move(other)); }, [](const fttcan::malformed &f) {
        return f.why == 10 && std::string(f.what()) == "malformed: operation 0: the slot is taken by a live entry";
    })));
    fttcan::master gone = std::move(m);
    other = gone.apart().plan(9, {first});
    WANT(throws<fttcan::closed>([&] { m.settle(2, std::move(other)); }) && other);
}

void of_standby() {
    fttcan::master m(rules);
    fttcan::standby s(rules);
    m.submit(1, 0, {first});
    s.change(1, 0, {first});
    WANT(throws<fttcan::malformed>([&] { s.change(1, 0, {first}); }));
    WANT((throws<fttcan::not_followed>([&] { s.trigger({}); }, [](const fttcan::not_followed &f) { return f.why.kind == 0; })));
    s.trigger(fttcan::encode(rules.slots, m.open()));
    WANT(s.next() == 1);
    m = s.take_over();
    WANT(!s && m.open().cycle == 1);
}

void of_pair() {
    fttcan_state state = {0, {0, 0}};
    const std::vector<fttcan_op> ops = {first};
    const fttcan::decision made = fttcan::decide(rules, {}, state, 0, ops);
    WANT(made.verdict.kind == FTTCAN_ACCEPTED && made.table.size() == 1);
    WANT(fttcan::open(rules, made.table, state).window == 135 && state.cycle == 1);
    state.pending.low = 1;
    WANT(throws<fttcan::bad_state>([&] { fttcan::open(rules, made.table, state); }));
}

void of_frames() {
    const std::vector<std::uint8_t> data = {0, 0, 0x87, 0x20, 0, 0, 0, 0};
    WANT(fttcan::wire_length(0, data) == 124);
    const std::vector<std::uint8_t> bits = fttcan::wire_bits(0, data);
    WANT(bits.size() == 124 && fttcan::read_wire(bits).len == 8);
    const std::vector<std::uint8_t> short_bits(bits.begin(), bits.begin() + 50);
    WANT((throws<fttcan::bad_text>([&] { fttcan::read_wire(short_bits); },
                                   [](const fttcan::bad_text &f) { return f.place == 50; })));
    const fttcan_trigger trigger = {{0x20, 0}, 300, 135};
    WANT(fttcan::decode(40, fttcan::encode(40, trigger)).cycle == 44);
    WANT(fttcan::payload(258, 3) == (std::vector<std::uint8_t>{0, 1, 2}));
    WANT(fttcan::payload(258, 0).empty());
    WANT(fttcan::fits({1000, 0, 270, 40}, 595, 8, 270) && !fttcan::fits({1000, 0, 270, 40}, 596, 8, 270));
    const std::vector<fttcan_stream> streams = {{10000, 1, 0x300, 8}, {568, 1, 0x301, 8}};
    WANT(fttcan::async_bound({1000, 30, 135, 40}, streams, 0) == std::uint64_t{569});
    WANT(!fttcan::async_bound({1000, 30, 135, 40}, streams, 1));
    WANT(throws<fttcan::bad_argument>([&] { fttcan::async_bound({1000, 30, 135, 40}, streams, 2); }));
}

void of_node() {
    const std::vector<fttcan_owner> owners = {{0x210, 1}};
    const std::vector<fttcan_placed> table = {{0, 0, first.entry, 0}, {0, 0, {0, 1, 1, 6, 1, 0, 0}, 0}};
    const fttcan_op more = {FTTCAN_ADD, {0, 4, 1, 7, 1, 0, 0}};
    fttcan::node n({1000, 20, 400, 40}, {1, 2, 1, 1, 0}, owners);
    WANT(throws<fttcan::bad_argument>([&] { fttcan::node none({1000, 20, 400, 41}, {1, 2, 1, 1, 0}, owners); }));
    n.learn(table);
    const std::vector<fttcan_placed> longer = fttcan::apply(table, 3, std::vector<fttcan_op>{more});
    WANT(longer.size() == 3 && longer[2].origin == 3);
    WANT(throws<fttcan::full>([&] { n.learn(longer); }));
    WANT(throws<fttcan::not_accepted>([&] { fttcan::apply(table, 3, std::vector<fttcan_op>{first}); }));
    n.go_to(0);
    WANT(throws<fttcan::bad_argument>([&] { n.go_to(~std::uint64_t{0}); }));
    const fttcan_trigger trigger = {{0x60, 0}, 0, 190};
    WANT(!n.opened() && n.trigger(fttcan::encode(40, trigger)[0]) == FTTCAN_OPENED && n.opened()->window == 190 && n.next() == 1);
    fttcan_frame request{0x210, 1, {9, 0, 0, 0, 0, 0, 0, 0}};
    WANT(n.put(request) && !n.put(request) && n.waiting(0x210) == 1);
    request.id = 0x211;
    WANT(throws<fttcan::bad_argument>([&] { n.put(request); }));
    /* The asynchronous window opens at 155; the synchronous one begins at 810, and 65 bits end there from 745 on. */
    WANT(n.wake(0) == std::uint64_t{155} && !n.offered(154) && n.offered(155)->id == 0x210 && n.offered(155)->until == 745);
    WANT(n.frame_of(155, 0x210)->bytes[0] == 9 && !n.frame_of(155, 0x105) && !n.load(155, 0x105));
    const fttcan_ticket ticket = n.load(155, 0x210)->ticket;
    WANT(!n.offered(155) && !n.drop(0x210) && n.withdrawn(ticket) && !n.withdrawn(ticket) && n.sent(ticket) && !n.sent(ticket));
    const std::vector<std::uint8_t> data = {1, 2, 3, 4, 5, 6, 7, 8};
    n.set(5, data);
    WANT(throws<fttcan::bad_argument>([&] { n.set(40, data); }));
    WANT(n.due().low == 0x60 && n.slot_due(5)->start == 810 && n.slot_due(5)->last == 865 && !n.slot_due(7));
    WANT(n.slot_frame(5)->bytes[7] == 8 && !n.slot_frame(7) && !n.wake(945));
    fttcan::node other = std::move(n);
    WANT(!n && other && throws<fttcan::closed>([&] { n.due(); }) && other.due().low == 0x60);
}

void of_reserve() {
    WANT(fttcan::reserve(2) == 326 && fttcan::reserve(1, 0) == 83 && fttcan::errors_within(325) == 1);
    WANT(throws<fttcan::bad_argument>([&] { fttcan::reserve(1, 9); }));
    fttcan::master m(rules);
    fttcan::standby s(rules);
    m.submit(1, 0, {first});
    s.change(1, 0, {first});
    const std::vector<fttcan_frame> frames = fttcan::encode_reserved(40, m.open(), 326);
    WANT(fttcan::decode(40, frames).window == 461);
    WANT((throws<fttcan::not_followed>([&] { s.trigger(frames); }, [](const fttcan::not_followed &f) { return f.why.kind == 2; })));
    WANT((throws<fttcan::not_followed>([&] { s.trigger_reserved(325, frames); })));
    s.trigger_reserved(326, frames);
    WANT(s.next() == 1);
}

void of_changes() {
    const std::vector<fttcan_op> ops = {first, {FTTCAN_REMOVE, {0, 0, 0, 9, 0, 0, 0}}};
    const std::vector<fttcan_placed> table = {{7, 9, first.entry, 1}};
    fttcan::collector c(1);
    std::optional<fttcan_told> told;
    for (const fttcan_frame &frame : fttcan::encode_change(0x7EF, 3, 12, ops))
        told = c.hear(frame);
    WANT(told && told->kind == FTTCAN_TELLS_CHANGE && told->number == 3 && told->start == 12 && c.ops().size() == 2 && c.ops()[1].kind == FTTCAN_REMOVE);
    WANT(throws<fttcan::bad_text>([&] { c.table(); }));
    told.reset();
    for (const fttcan_frame &frame : fttcan::encode_table(0x7EF, 4, table))
        told = c.hear(frame);
    WANT(told && told->kind == FTTCAN_TELLS_TABLE && told->number == 4 && c.table().size() == 1 && c.table()[0].end == 9);
    WANT(throws<fttcan::full>([&] {
        for (const fttcan_frame &frame : fttcan::encode_table(0x7EF, 5, std::vector<fttcan_placed>(10, table[0])))
            c.hear(frame);
    }));
    WANT(throws<fttcan::bad_argument>([&] { fttcan::encode_change(0x1FF, 3, 12, ops); }));
}

} // namespace

int main() {
    of_master();
    of_miss();
    of_apart();
    of_standby();
    of_pair();
    of_frames();
    of_node();
    of_reserve();
    of_changes();
    if (wrong)
        std::printf("calls.cpp: %d wrong\n", wrong);
    return wrong != 0;
}
