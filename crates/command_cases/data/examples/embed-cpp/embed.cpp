// A master in C++: a change is planned in another thread while cycles are opened, a refusal is caught with its numbers, and
// the master is saved and goes on from its bytes.
#include <fttcan.hpp>

#include <cinttypes>
#include <cstdio>
#include <future>

namespace {

const fttcan_rules rules = {10000, 405, 3, 40, FTTCAN_EDF, FTTCAN_SKIP};

fttcan_op add(std::uint8_t slot, std::uint8_t node, std::uint8_t length, std::uint16_t period, std::uint16_t deadline) {
    return {FTTCAN_ADD, {0, period, deadline, slot, node, length, 0}};
}

void open_cycle(fttcan::master &master) {
    const fttcan_order order = master.open();
    std::printf("cycle %" PRIu64 ": slots", order.cycle);
    for (unsigned slot = 0; slot < rules.slots; slot++)
        if (fttcan::has(order.flags, slot))
            std::printf(" %u", slot);
    std::printf(", %u bit times\n", static_cast<unsigned>(order.window));
}

} // namespace

int main() {
    fttcan::master master(rules);
    const fttcan::accepted first = master.submit(1, 0, {add(0, 0, 8, 1, 1), add(1, 1, 8, 2, 1), add(2, 2, 8, 4, 4)});
    std::printf("accepted: it repeats every %" PRIu64 " cycles from %" PRIu64 " on\n", first.length, first.first);
    open_cycle(master);

    // The change is planned in a thread of its own, from what the master gave away; the master goes on meanwhile.
    std::future<fttcan::planned> change = std::async(std::launch::async, [apart = master.apart()]() mutable {
        return apart.plan(6, {add(9, 0, 2, 1, 1)});
    });
    open_cycle(master);
    open_cycle(master);
    master.settle(2, change.get());
    std::printf("settled: slot 9 from cycle 6 on\n");

    try {
        master.submit(1, 8, {add(5, 2, 8, 2, 1), add(6, 2, 8, 4, 1)});
    } catch (const fttcan::missed &miss) {
        std::printf("refused: %s\n", miss.what());
        std::printf("slot %d would miss cycle %" PRIu64 "; %zu cycles were planned up to it\n", miss.slot, miss.cycle, miss.trail.size());
    }

    const std::vector<std::uint8_t> saved = master.saved();
    fttcan::master again = fttcan::master::restored(saved);
    std::printf("restored before cycle %" PRIu64 "\n", again.next());
    for (int n = 0; n < 5; n++)
        open_cycle(again);
    fttcan::check(again.table(), rules.window, again.certificate());
    std::printf("its plan keeps the table for ever\n");
    return 0;
}
