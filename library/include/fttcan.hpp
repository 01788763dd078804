// fttcan for C++17: classes over the handles of fttcan.h, which can be moved and not copied, and exceptions for the statuses.
//
// The header is all: it needs libfttcan and nothing else. fttcan.h says what each call does, and in which units; the rules
// on threads are those of its handles. An object that was moved from holds nothing, and its calls throw fttcan::closed.
// Lists are passed as spans: std::span if the compiler has it, and otherwise a class that takes what has data() and size().
#ifndef FTTCAN_HPP
#define FTTCAN_HPP

#include "fttcan.h"

#include <array>
#include <cstddef>
#include <cstdint>
#include <initializer_list>
#include <new>
#include <stdexcept>
#include <optional>
#include <string>
#include <string_view>
#include <type_traits>
#include <utility>
#include <vector>
#if __cplusplus >= 202002L && __has_include(<span>)
#include <span>
#endif

namespace fttcan {

#if defined(__cpp_lib_span)
template <class T> using span = std::span<T>;
#else
/// A list that is lent: a pointer and a count.
template <class T> class span {
public:
    constexpr span() noexcept = default;
    constexpr span(T *at, std::size_t count) noexcept : at_(at), count_(count) {}
    template <std::size_t N> constexpr span(T (&list)[N]) noexcept : at_(list), count_(N) {}
    template <class C, class = decltype(static_cast<T *>(std::declval<C &>().data()))>
    constexpr span(C &&list) noexcept : at_(list.data()), count_(list.size()) {}
    constexpr T *data() const noexcept { return at_; }
    constexpr std::size_t size() const noexcept { return count_; }
    constexpr bool empty() const noexcept { return count_ == 0; }
    constexpr T *begin() const noexcept { return at_; }
    constexpr T *end() const noexcept { return at_ + count_; }
    constexpr T &operator[](std::size_t place) const { return at_[place]; }

private:
    T *at_ = nullptr;
    std::size_t count_ = 0;
};
#endif

using bytes = span<const std::uint8_t>;

/// What a call throws that did not answer FTTCAN_OK. If memory ran out, that is std::bad_alloc.
class fault : public std::runtime_error {
public:
    fault(std::uint32_t status, const std::string &told) : std::runtime_error(told), status_(status) {}
    std::uint32_t status() const noexcept { return status_; }

private:
    std::uint32_t status_;
};

/// FTTCAN_ARGUMENT: an argument is out of its range.
class bad_argument : public fault {
public:
    using fault::fault;
};

/// FTTCAN_TABLE: the table is not well placed.
class bad_table : public fault {
public:
    using fault::fault;
};

/// FTTCAN_STATE: the state can't be planned from, or no cycle may be opened any more.
class bad_state : public fault {
public:
    using fault::fault;
};

/// FTTCAN_MISS: an instance would miss its deadline in this cycle.
class would_miss : public fault {
public:
    using fault::fault;
};

/// FTTCAN_CLOSED: the object holds nothing, since it was moved from.
class closed : public fault {
public:
    using fault::fault;
};

/// FTTCAN_TEXT: a text, bytes or frames that are none of the form. `place` is the line, counted from 1, or the bit, from
/// 0, of the first fault, if there is one to tell.
class bad_text : public fault {
public:
    explicit bad_text(const std::string &told, std::uint64_t where = 0) : fault(FTTCAN_TEXT, told), place(where) {}
    std::uint64_t place;
};

/// A node was made for fewer entries, or a room is too small for a message.
class full : public fault {
public:
    using fault::fault;
};

/// A change that no master accepts: fttcan::apply.
class not_accepted : public fault {
public:
    using fault::fault;
};

/// A change that was refused: `verdict` has its numbers, and each kind has a class.
class refused : public fault {
public:
    explicit refused(const fttcan_verdict &answer) : fault(FTTCAN_NO, words_of(answer)), verdict(answer) {}
    fttcan_verdict verdict;

private:
    static std::string words_of(const fttcan_verdict &answer) {
        std::array<char, 200> room{};
        fttcan_verdict_words(&answer, room.data(), room.size());
        return room.data();
    }
};

/// Operation `op` breaks rule `why`, 1 to 11. If `is_known`, the slot is free from cycle `until` on, or its entry
/// begins in it.
class malformed : public refused {
public:
    explicit malformed(const fttcan_verdict &v) : refused(v), op(v.op), why(v.why), is_known(v.known != 0), until(v.first) {}
    std::uint8_t op, why;
    bool is_known;
    std::uint64_t until;
};

/// The start is over, since cycle `next` is the next one.
class passed : public refused {
public:
    explicit passed(const fttcan_verdict &v) : refused(v), start(v.first), next(v.second) {}
    std::uint64_t start, next;
};

/// The instance of `slot` that is released in cycle `release` would be missed in `cycle`, its last one. `trail` is what
/// each cycle up to it would have sent.
class missed : public refused {
public:
    explicit missed(const fttcan_verdict &v, std::vector<fttcan_mask> sent = {})
        : refused(v), slot(v.slot), release(v.first), cycle(v.second), trail(std::move(sent)) {}
    std::uint8_t slot;
    std::uint64_t release, cycle;
    std::vector<fttcan_mask> trail;
};

/// Planned from cycle `from` on, no state came again within `walked` cycles.
class no_repeat : public refused {
public:
    explicit no_repeat(const fttcan_verdict &v) : refused(v), from(v.first), walked(v.second) {}
    std::uint64_t from, walked;
};

/// A trigger that a standby does not follow: `why` has its numbers.
class not_followed : public fault {
public:
    explicit not_followed(const fttcan_follow &found) : fault(FTTCAN_NO, "the trigger is not the planned one"), why(found) {}
    fttcan_follow why;
};

/// A plan that does not keep its table: `breach` has its numbers.
class plan_refused : public fault {
public:
    explicit plan_refused(const fttcan_breach &found) : fault(FTTCAN_NO, "the plan does not keep the table"), breach(found) {}
    fttcan_breach breach;
};

/// An accepted change: from cycle `first` on the plan does the same again every `length` cycles.
struct accepted {
    std::uint64_t first, length;
};

namespace of {

/// The pointer of a list, which is never null.
template <class T> T *at(span<T> list) noexcept {
    alignas(T) static unsigned char none[sizeof(T)];
    return list.data() != nullptr ? list.data() : reinterpret_cast<T *>(none);
}

/// Throws what a status stands for.
inline void check(std::uint32_t status, const char *call) {
    if (status == FTTCAN_OK)
        return;
    const std::string told = std::string(call) + ": " + fttcan_status_name(status);
    switch (status) {
    case FTTCAN_MEMORY: throw std::bad_alloc();
    case FTTCAN_ARGUMENT: throw bad_argument(status, told);
    case FTTCAN_TABLE: throw bad_table(status, told);
    case FTTCAN_STATE: throw bad_state(status, told);
    case FTTCAN_MISS: throw would_miss(status, told);
    case FTTCAN_CLOSED: throw closed(status, told);
    case FTTCAN_TEXT: throw bad_text(told);
    case FTTCAN_FULL: throw full(status, told);
    default: throw fault(status, told);
    }
}

/// Throws what a verdict that is not `accepted` stands for.
inline accepted taken(const fttcan_verdict &verdict) {
    switch (verdict.kind) {
    case FTTCAN_ACCEPTED: return {verdict.first, verdict.second};
    case FTTCAN_MALFORMED: throw malformed(verdict);
    case FTTCAN_PASSED: throw passed(verdict);
    case FTTCAN_MISSED: throw missed(verdict);
    case FTTCAN_HORIZON: throw no_repeat(verdict);
    default: throw refused(verdict);
    }
}

/// Calls with a room that is as large as the call says it must be, and answers what was written.
template <class List, class Call> List filled(const char *name, Call call) {
    List room(16, typename List::value_type{});
    fttcan_size count = 0;
    std::uint32_t status = call(room.data(), room.size(), &count);
    if (status == FTTCAN_ROOM) {
        room.resize(static_cast<std::size_t>(count));
        status = call(room.data(), room.size(), &count);
    }
    check(status, name);
    room.resize(static_cast<std::size_t>(count));
    return room;
}

/// A handle that is let go at its end, and can be moved. Its struct is copied in a move alone, and the old one is zero then.
template <class Handle, void (*Free)(Handle *)> class owner {
public:
    owner() noexcept = default;
    owner(const owner &) = delete;
    owner &operator=(const owner &) = delete;
    owner(owner &&other) noexcept : held_(std::exchange(other.held_, Handle{})) {}
    owner &operator=(owner &&other) noexcept {
        if (this != &other) {
            Free(&held_);
            held_ = std::exchange(other.held_, Handle{});
        }
        return *this;
    }
    ~owner() { Free(&held_); }
    /// The handle, for calls of fttcan.h.
    Handle *get() noexcept { return &held_; }
    /// Whether something is held.
    explicit operator bool() const noexcept { return held_.wide != 0; }

private:
    Handle held_{};
};

} // namespace of

/// A change that was planned apart from its master.
class planned : public of::owner<fttcan_planned, fttcan_planned_free> {
public:
    /// What it would be answered, if the master had not gone on.
    fttcan_verdict verdict() {
        fttcan_verdict answer{};
        of::check(fttcan_planned_verdict(get(), &answer), "planned::verdict");
        return answer;
    }
};

/// What a change is planned from, apart from its master.
class snapshot : public of::owner<fttcan_snapshot, fttcan_snapshot_free> {
public:
    /// Plans a change, and takes this snapshot.
    planned plan(std::uint64_t start, span<const fttcan_op> ops) {
        planned made;
        of::check(fttcan_plan_apart(get(), start, of::at(ops), ops.size(), made.get()), "snapshot::plan");
        return made;
    }
    planned plan(std::uint64_t start, std::initializer_list<fttcan_op> ops) {
        return plan(start, span<const fttcan_op>(ops.begin(), ops.size()));
    }
};

/// A master: the table, the next cycle and what is pending before it.
class master : public of::owner<fttcan_master, fttcan_master_free> {
public:
    explicit master(const fttcan_rules &rules) { of::check(fttcan_master_new(get(), &rules), "master"); }

    /// A master of saved bytes. Whether they are the newest, and whether they are of this network, is not checked.
    static master restored(bytes saved) {
        master made;
        of::check(fttcan_master_restore(made.get(), of::at(saved), saved.size()), "master::restored");
        return made;
    }

    /// Answers a change, whatever the answer is.
    fttcan_verdict answer(std::uint8_t caller, std::uint64_t start, span<const fttcan_op> ops) {
        fttcan_verdict verdict{};
        of::check(fttcan_master_submit(get(), caller, start, of::at(ops), ops.size(), &verdict), "master::answer");
        return verdict;
    }

    /// Answers a change, and throws what a refusal stands for.
    accepted submit(std::uint8_t caller, std::uint64_t start, span<const fttcan_op> ops) {
        return taken(answer(caller, start, ops));
    }
    accepted submit(std::uint8_t caller, std::uint64_t start, std::initializer_list<fttcan_op> ops) {
        return submit(caller, start, span<const fttcan_op>(ops.begin(), ops.size()));
    }

    /// What led to the last answer, if that was a miss.
    std::vector<fttcan_mask> trail() {
        return of::filled<std::vector<fttcan_mask>>("master::trail", [this](fttcan_mask *room, std::size_t size, fttcan_size *count) {
            return fttcan_master_trail(get(), room, size, count);
        });
    }

    /// Answers the next cycle to an operator.
    std::uint64_t look(std::uint8_t caller) {
        std::uint64_t next = 0;
        of::check(fttcan_master_look(get(), caller, &next), "master::look");
        return next;
    }

    /// Plans and opens the next cycle.
    fttcan_order open() {
        fttcan_order order{};
        of::check(fttcan_master_open(get(), &order), "master::open");
        return order;
    }

    /// What open() would flag now.
    fttcan_mask upcoming() {
        fttcan_mask flags{};
        of::check(fttcan_master_planned(get(), &flags), "master::upcoming");
        return flags;
    }

    /// The next cycle to be opened.
    std::uint64_t next() {
        std::uint64_t cycle = 0;
        of::check(fttcan_master_next(get(), &cycle), "master::next");
        return cycle;
    }

    /// The rules of this master.
    fttcan_rules rules() {
        fttcan_rules made{};
        of::check(fttcan_master_rules(get(), &made), "master::rules");
        return made;
    }

    /// The placed entries that still count.
    std::vector<fttcan_placed> table() {
        return of::filled<std::vector<fttcan_placed>>("master::table", [this](fttcan_placed *room, std::size_t size, fttcan_size *count) {
            return fttcan_master_table(get(), room, size, count);
        });
    }

    /// The text of the plan from the next cycle on.
    std::string certificate() {
        const auto text = of::filled<std::vector<std::uint8_t>>(
            "master::certificate", [this](std::uint8_t *room, std::size_t size, fttcan_size *count) {
                return fttcan_master_certificate(get(), room, size, count);
            });
        return std::string(text.begin(), text.end());
    }

    /// The state as bytes.
    std::vector<std::uint8_t> saved() {
        return of::filled<std::vector<std::uint8_t>>("master::saved", [this](std::uint8_t *room, std::size_t size, fttcan_size *count) {
            return fttcan_master_save(get(), room, size, count);
        });
    }

    /// Takes what changes are planned from.
    snapshot apart() {
        snapshot made;
        of::check(fttcan_master_snapshot(get(), made.get()), "master::apart");
        return made;
    }

    /// Answers a change that was planned apart, and takes it. It throws what a refusal stands for. After std::bad_alloc the
    /// change is gone too, and is asked for anew. After fttcan::closed (this or the change holds nothing) and after
    /// fttcan::bad_argument (the caller is not 1 to 8) both are as before.
    accepted settle(std::uint8_t caller, planned &&change) {
        fttcan_verdict verdict{};
        of::check(fttcan_master_settle(get(), caller, change.get(), &verdict), "master::settle");
        return taken(verdict);
    }

private:
    friend class standby;
    master() = default;

    accepted taken(const fttcan_verdict &verdict) {
        if (verdict.kind == FTTCAN_MISSED)
            throw missed(verdict, trail());
        return of::taken(verdict);
    }
};

/// A standby: it is told the accepted changes and hears the triggers, and takes over from there.
class standby : public of::owner<fttcan_standby, fttcan_standby_free> {
public:
    explicit standby(const fttcan_rules &rules) { of::check(fttcan_standby_new(get(), &rules), "standby"); }

    /// Tells a change that the master has accepted, which takes effect in cycle `start`. It throws what the standby's own
    /// refusal stands for: that never comes if the standby followed all that the master did before.
    accepted change(std::uint8_t caller, std::uint64_t start, span<const fttcan_op> ops) {
        fttcan_verdict verdict{};
        const std::uint32_t status = fttcan_standby_change(get(), caller, start, of::at(ops), ops.size(), &verdict);
        if (status != FTTCAN_NO)
            of::check(status, "standby::change");
        return of::taken(verdict);
    }
    accepted change(std::uint8_t caller, std::uint64_t start, std::initializer_list<fttcan_op> ops) {
        return change(caller, start, span<const fttcan_op>(ops.begin(), ops.size()));
    }

    /// Tells the trigger frames of a cycle.
    void trigger(span<const fttcan_frame> frames) {
        fttcan_follow why{};
        const std::uint32_t status = fttcan_standby_trigger(get(), of::at(frames), frames.size(), &why);
        if (status == FTTCAN_NO)
            throw not_followed(why);
        of::check(status, "standby::trigger");
    }
    /// The same for triggers whose window is longer by a reserve.
    void trigger_reserved(std::uint32_t reserve, span<const fttcan_frame> frames) {
        fttcan_follow why{};
        const std::uint32_t status = fttcan_standby_trigger_reserved(get(), reserve, of::at(frames), frames.size(), &why);
        if (status == FTTCAN_NO)
            throw not_followed(why);
        of::check(status, "standby::trigger_reserved");
    }

    /// The next cycle whose trigger is expected.
    std::uint64_t next() {
        std::uint64_t cycle = 0;
        of::check(fttcan_standby_next(get(), &cycle), "standby::next");
        return cycle;
    }

    /// The master that goes on from here. This standby holds nothing then.
    master take_over() {
        master made;
        of::check(fttcan_standby_take_over(get(), made.get()), "standby::take_over");
        return made;
    }
};

/// A node: its entries, requests and bytes, and the cycle that is open for it. Times are bit times from the start of the first
/// trigger frame of that cycle. fttcan_node_.. of fttcan.h say what each call does. What a call did not find is nothing, or
/// false, and no exception.
class node : public of::owner<fttcan_node, fttcan_node_free> {
public:
    node(const fttcan_layout &layout, const fttcan_settings &settings, span<const fttcan_owner> owners) {
        of::check(fttcan_node_new(get(), &layout, &settings, of::at(owners), owners.size()), "node");
    }

    /// Replaces what the node knows by the entries of its number in a table. fttcan::full: they are too many.
    void learn(span<const fttcan_placed> table) { of::check(fttcan_node_learn(get(), of::at(table), table.size()), "node::learn"); }

    /// The next trigger that is taken is that of a cycle, or of a later one.
    void go_to(std::uint64_t cycle) { of::check(fttcan_node_go_to(get(), cycle), "node::go_to"); }

    /// Tells a frame that may be a trigger frame: FTTCAN_OPENED and so on.
    std::uint8_t trigger(const fttcan_frame &heard, std::uint32_t cycles_passed = 0) {
        std::uint8_t what = 0;
        of::check(fttcan_node_trigger(get(), &heard, cycles_passed, &what), "node::trigger");
        return what;
    }

    /// Sets the bytes that a slot sends from the next `load` on.
    void set(std::uint8_t slot, bytes list) { of::check(fttcan_node_set(get(), slot, of::at(list), list.size()), "node::set"); }

    /// Puts a request. It answers whether there was room.
    bool put(const fttcan_frame &request) {
        const std::uint32_t status = fttcan_node_put(get(), &request);
        if (status == FTTCAN_FULL)
            return false;
        of::check(status, "node::put");
        return true;
    }

    /// Drops the oldest request that waits under an identifier, if one does that is not in flight.
    bool drop(std::uint16_t id) { return found(fttcan_node_drop(get(), id), "node::drop"); }

    /// How many requests wait under an identifier.
    std::size_t waiting(std::uint16_t id) {
        fttcan_size count = 0;
        of::check(fttcan_node_waiting(get(), id, &count), "node::waiting");
        return static_cast<std::size_t>(count);
    }

    /// What it offers at a time.
    std::optional<fttcan_offer> offered(std::uint64_t into) {
        fttcan_offer answer{};
        return found(fttcan_node_offer(get(), into, &answer), "node::offered") ? std::optional<fttcan_offer>(answer) : std::nullopt;
    }

    /// The first later time at which it offers something.
    std::optional<std::uint64_t> wake(std::uint64_t into) {
        std::uint64_t time = 0;
        return found(fttcan_node_wake(get(), into, &time), "node::wake") ? std::optional<std::uint64_t>(time) : std::nullopt;
    }

    /// The frame of what it offers at a time: a look.
    std::optional<fttcan_frame> frame_of(std::uint64_t into, std::uint16_t id) {
        fttcan_frame answer{};
        return found(fttcan_node_frame(get(), into, id, &answer), "node::frame_of") ? std::optional<fttcan_frame>(answer) : std::nullopt;
    }

    /// Takes the frame of what it offers at a time, for the controller.
    std::optional<fttcan_loaded> load(std::uint64_t into, std::uint16_t id) {
        fttcan_loaded answer{};
        return found(fttcan_node_load(get(), into, id, &answer), "node::load") ? std::optional<fttcan_loaded>(answer) : std::nullopt;
    }

    /// Tells that the frame of a ticket was sent. It answers whether that counts.
    bool sent(const fttcan_ticket &ticket) { return found(fttcan_node_sent(get(), &ticket), "node::sent"); }

    /// Tells that the frame of a ticket was not sent, and will not be. It answers whether it was in flight.
    bool withdrawn(const fttcan_ticket &ticket) { return found(fttcan_node_withdrawn(get(), &ticket), "node::withdrawn"); }

    /// The slots that it owes in the open cycle.
    fttcan_mask due() {
        fttcan_mask slots{};
        of::check(fttcan_node_due(get(), &slots), "node::due");
        return slots;
    }

    /// When a slot that it owes may start.
    std::optional<fttcan_due> slot_due(std::uint8_t slot) {
        fttcan_due answer{};
        return found(fttcan_node_slot_due(get(), slot, &answer), "node::slot_due") ? std::optional<fttcan_due>(answer) : std::nullopt;
    }

    /// The frame of a slot that it owes: a look.
    std::optional<fttcan_frame> slot_frame(std::uint8_t slot) {
        fttcan_frame answer{};
        return found(fttcan_node_slot_frame(get(), slot, &answer), "node::slot_frame") ? std::optional<fttcan_frame>(answer) : std::nullopt;
    }

    /// The least cycle whose trigger it can take.
    std::uint64_t next() {
        std::uint64_t cycle = 0;
        of::check(fttcan_node_next(get(), &cycle), "node::next");
        return cycle;
    }

    /// The open cycle, with its flags and its window.
    std::optional<fttcan_trigger> opened() {
        fttcan_trigger answer{};
        return found(fttcan_node_opened(get(), &answer), "node::opened") ? std::optional<fttcan_trigger>(answer) : std::nullopt;
    }

private:
    static bool found(std::uint32_t status, const char *call) {
        if (status == FTTCAN_NO)
            return false;
        of::check(status, call);
        return true;
    }
};

/// The table after a change that a master has accepted, without a plan. not_accepted: no master accepts it.
inline std::vector<fttcan_placed> apply(span<const fttcan_placed> table, std::uint64_t start, span<const fttcan_op> ops) {
    std::vector<fttcan_placed> made(table.size() + ops.size() + 1);
    fttcan_size count = 0;
    const std::uint32_t status =
        fttcan_apply(of::at(table), table.size(), start, of::at(ops), ops.size(), made.data(), made.size(), &count);
    if (status == FTTCAN_NO)
        throw not_accepted(status, "apply: no master accepts the change");
    of::check(status, "apply");
    made.resize(static_cast<std::size_t>(count));
    return made;
}

/// How much longer a window has to be for so many disturbances, in bit times, if no frame has more data bytes.
inline std::uint32_t reserve(std::uint16_t errors, std::uint8_t bytes_of_frame = 8) {
    std::uint32_t bits = 0;
    of::check(fttcan_reserve(errors, bytes_of_frame, &bits), "reserve");
    return bits;
}

/// For how many disturbances a reserve of so many bit times is enough.
inline std::uint32_t errors_within(std::uint32_t bits, std::uint8_t bytes_of_frame = 8) {
    std::uint32_t errors = 0;
    of::check(fttcan_errors_within(bits, bytes_of_frame, &errors), "errors_within");
    return errors;
}

/// The frames that tell an accepted change.
inline std::vector<fttcan_frame> encode_change(std::uint16_t id, std::uint32_t number, std::uint64_t start, span<const fttcan_op> ops) {
    return of::filled<std::vector<fttcan_frame>>("encode_change", [&](fttcan_frame *room, fttcan_size size, fttcan_size *count) {
        return fttcan_change_encode(id, number, start, of::at(ops), ops.size(), room, size, count);
    });
}

/// The frames that tell a table.
inline std::vector<fttcan_frame> encode_table(std::uint16_t id, std::uint32_t number, span<const fttcan_placed> table) {
    return of::filled<std::vector<fttcan_frame>>("encode_table", [&](fttcan_frame *room, fttcan_size size, fttcan_size *count) {
        return fttcan_table_encode(id, number, of::at(table), table.size(), room, size, count);
    });
}

/// Collects the frames of one identifier into messages. Of a table with so many entries there is room.
class collector {
public:
    explicit collector(std::size_t entries = 96) : room_(FTTCAN_COLLECT_ROOM(entries < 9 ? 9 : entries)) {}

    /// Takes a frame. If it makes a message whole, that is the answer: read it before the next frame. fttcan::full: the message
    /// is longer than the room.
    std::optional<fttcan_told> hear(const fttcan_frame &heard) {
        fttcan_told told{};
        const std::uint32_t status = fttcan_collect(&collected_, &heard, room_.data(), room_.size(), &told);
        if (status == FTTCAN_NO || status == FTTCAN_TEXT)
            return std::nullopt;
        if (status == FTTCAN_ROOM)
            throw full(status, "collector::hear: the message is longer than the room");
        of::check(status, "collector::hear");
        return told;
    }

    /// The operations of a change that is whole.
    std::vector<fttcan_op> ops() {
        fttcan_told told{};
        return of::filled<std::vector<fttcan_op>>("collector::ops", [&](fttcan_op *list, fttcan_size size, fttcan_size *count) {
            return fttcan_change_decode(room_.data(), room_.size(), &told, list, size, count);
        });
    }

    /// The entries of a table that is whole.
    std::vector<fttcan_placed> table() {
        fttcan_told told{};
        return of::filled<std::vector<fttcan_placed>>("collector::table", [&](fttcan_placed *list, fttcan_size size, fttcan_size *count) {
            return fttcan_table_decode(room_.data(), room_.size(), &told, list, size, count);
        });
    }

private:
    std::vector<std::uint8_t> room_;
    fttcan_collected collected_{};
};

/// What was decided of a change of a table that the caller keeps: the verdict, and the changed table if it is accepted.
struct decision {
    fttcan_verdict verdict;
    std::vector<fttcan_placed> table;
};

/// Decides of a change of a table that the caller keeps, whatever the verdict is.
inline decision decide(const fttcan_rules &rules, span<const fttcan_placed> table, const fttcan_state &state, std::uint64_t start,
                       span<const fttcan_op> ops) {
    decision made{{}, std::vector<fttcan_placed>(table.size() + ops.size() + 1)};
    fttcan_size count = 0;
    of::check(fttcan_decide(&rules, of::at(table), table.size(), &state, start, of::at(ops), ops.size(), &made.verdict,
                            made.table.data(), made.table.size(), &count),
              "decide");
    made.table.resize(made.verdict.kind == FTTCAN_ACCEPTED ? static_cast<std::size_t>(count) : 0);
    return made;
}

/// Plans the cycle of a state, and makes the state that of the next one.
inline fttcan_plan open(const fttcan_rules &rules, span<const fttcan_placed> table, fttcan_state &state) {
    fttcan_plan plan{};
    of::check(fttcan_open(&rules, of::at(table), table.size(), &state, &plan), "open");
    return plan;
}

/// Throws plan_refused if a plan does not keep a table, and bad_text if the text is none of a plan.
inline void check(span<const fttcan_placed> table, std::uint32_t window, std::string_view text) {
    fttcan_breach breach{};
    const bytes lent(reinterpret_cast<const std::uint8_t *>(text.data()), text.size());
    const std::uint32_t status = fttcan_check(of::at(table), table.size(), window, of::at(lent), lent.size(), &breach);
    if (status == FTTCAN_NO)
        throw plan_refused(breach);
    if (status == FTTCAN_TEXT)
        throw bad_text("check: the text is none of a plan", breach.first);
    of::check(status, "check");
}

/// The length of a frame on the wire in bit times.
inline std::uint32_t wire_length(std::uint16_t id, bytes data) {
    std::uint32_t bits = 0;
    of::check(fttcan_wire_length(id, of::at(data), data.size(), &bits), "wire_length");
    return bits;
}

/// The bits of a frame on the wire, one a byte.
inline std::vector<std::uint8_t> wire_bits(std::uint16_t id, bytes data) {
    return of::filled<std::vector<std::uint8_t>>("wire_bits", [&](std::uint8_t *room, std::size_t size, fttcan_size *count) {
        return fttcan_wire_bits(id, of::at(data), data.size(), room, size, count);
    });
}

/// The frame that has these bits on the wire.
inline fttcan_frame read_wire(bytes bits) {
    fttcan_frame frame{};
    fttcan_size place = 0;
    const std::uint32_t status = fttcan_read_wire(of::at(bits), bits.size(), &frame, &place);
    if (status == FTTCAN_TEXT)
        throw bad_text("read_wire: no frame has these bits", place);
    of::check(status, "read_wire");
    return frame;
}

/// The trigger frames of a cycle.
inline std::vector<fttcan_frame> encode(std::uint8_t slots, const fttcan_trigger &trigger) {
    return of::filled<std::vector<fttcan_frame>>("encode", [&](fttcan_frame *room, std::size_t size, fttcan_size *count) {
        return fttcan_trigger_encode(slots, &trigger, room, size, count);
    });
}

/// The trigger frames of an opened cycle.
inline std::vector<fttcan_frame> encode(std::uint8_t slots, const fttcan_order &order) {
    return encode(slots, fttcan_trigger{order.flags, order.cycle, order.window});
}

/// The same, with a window that is longer by a reserve.
inline std::vector<fttcan_frame> encode_reserved(std::uint8_t slots, const fttcan_order &order, std::uint32_t reserve) {
    const fttcan_trigger trigger{order.flags, order.cycle, order.window};
    return of::filled<std::vector<fttcan_frame>>("encode_reserved", [&](fttcan_frame *room, fttcan_size size, fttcan_size *count) {
        return fttcan_trigger_encode_reserved(slots, &trigger, reserve, room, size, count);
    });
}

/// What trigger frames say; the cycle is its low 8 bits.
inline fttcan_trigger decode(std::uint8_t slots, span<const fttcan_frame> frames) {
    fttcan_trigger trigger{};
    of::check(fttcan_trigger_decode(slots, of::at(frames), frames.size(), &trigger), "decode");
    return trigger;
}

/// The data bytes of an instance.
inline std::vector<std::uint8_t> payload(std::uint64_t number, std::size_t len) {
    std::vector<std::uint8_t> room(len);
    of::check(fttcan_payload(number, of::at(span<std::uint8_t>(room)), len), "payload");
    return room;
}

/// Whether an asynchronous frame may start at a bit time, counted from the start of cycle 0.
inline bool fits(const fttcan_layout &layout, std::uint64_t at, std::uint8_t dlc, std::uint32_t window) {
    std::uint8_t answer = 0;
    of::check(fttcan_fits(&layout, at, dlc, window, &answer), "fits");
    return answer != 0;
}

/// How late the frames of a stream start at most: less than so many bit times after the arrival of their request. Nothing
/// if no such number up to the stream's `gap` is known.
inline std::optional<std::uint64_t> async_bound(const fttcan_layout &layout, span<const fttcan_stream> streams,
                                                std::size_t which) {
    std::uint64_t start = 0;
    const auto status = fttcan_async_bound(&layout, of::at(streams), streams.size(), which, &start);
    if (status == FTTCAN_NO)
        return std::nullopt;
    of::check(status, "async_bound");
    return start;
}

/// What a command of the program wrote, and its exit status.
struct command {
    std::uint32_t status;
    std::string out, err;
};

/// Carries out a command of the program over memory: the words, where the files are named 0, 1, 2 and 3, and the files. The
/// room for the output grows until it is all there, or has so many bytes.
inline command run(const std::vector<std::string> &words, const std::array<std::string_view, 4> &files = {},
                   std::size_t most = std::size_t(1) << 28) {
    std::string joined;
    for (const std::string &word : words)
        joined += (&word == words.data() ? std::string() : std::string(1, '\0')) + word;
    bytes lent[5];
    for (std::size_t place = 0; place < 5; place++) {
        const std::string_view text = place < 4 ? files[place] : std::string_view(joined);
        lent[place] = bytes(reinterpret_cast<const std::uint8_t *>(text.data()), text.size());
    }
    for (std::size_t size = std::size_t(1) << 20;; size *= 4) {
        std::vector<std::uint8_t> out(size), err(4096);
        fttcan_size out_count = 0, err_count = 0;
        const std::uint32_t status = fttcan_run(of::at(lent[4]), lent[4].size(), of::at(lent[0]), lent[0].size(), of::at(lent[1]),
                                                lent[1].size(), of::at(lent[2]), lent[2].size(), of::at(lent[3]), lent[3].size(),
                                                out.data(), out.size(), &out_count, err.data(), err.size(), &err_count);
        if (status != 5 || size >= most)
            return {status, std::string(out.begin(), out.begin() + static_cast<std::ptrdiff_t>(out_count)),
                    std::string(err.begin(), err.begin() + static_cast<std::ptrdiff_t>(err_count))};
    }
}

/// Whether a set has a slot.
inline bool has(const fttcan_mask &mask, unsigned slot) noexcept {
    return slot < 64 ? (mask.low >> slot & 1) != 0 : slot < 128 && (mask.high >> (slot - 64) & 1) != 0;
}

} // namespace fttcan

#endif
