/* fttcan for C: the master of an FTT-CAN network, its standby, its online admission test, and its frames.
 *
 * docs/LIBRARY.md says which call is for what, what is proved of each, and how the library is built and linked.
 *
 * Units. Lengths and times on the bus are in bit times. All about entries, releases, deadlines and plans is in
 * elementary cycles, which are counted from 0. Lengths of frames, texts and rooms are in bytes or elements, as said.
 *
 * Calls. A call that can fail answers a status, FTTCAN_OK or another one of the list below. After a status other than
 * FTTCAN_OK every out value is as it was before the call, and so is what a handle holds, unless a call says otherwise.
 * If several statuses fit a call, FTTCAN_OPEN comes before FTTCAN_CLOSED, that before FTTCAN_ARGUMENT, and that before
 * all others. Of the others it answers one that fits. fttcan_run alone answers the exit status of a program instead. Of
 * the elements of a room those after `count` stay as they were. After FTTCAN_OK a `place`, `breach`, `fault` or `row` stays
 * too.
 * No call ends the program, prints, starts a thread, takes a lock, or reads a clock. All memory is taken by malloc and
 * realloc, and given back by free, or by three functions of the program (fttcan_heap.h). Each call ends.
 *
 * Memory. Each pointer is valid for the whole call, and not null. A slice is a pointer and then a count of elements. Its
 * pointer is not null either, even if the count is 0: then it is never read. What a call writes to overlaps nothing
 * else that is passed to it. The caller keeps all of this memory: no call keeps a pointer. A struct that is passed in is
 * read as it is: bytes of padding have no meaning.
 *
 * Sizes. This header is the same for processors of 64 and of 32 bits, and each struct has the same bytes on all of them. So
 * each size, count and place among elements that a call is passed or writes is an `fttcan_size` of 64 bits, and never a
 * `size_t`. A number of type `size_t` may be passed as one. What a call writes to is declared as it: `fttcan_size count;`.
 *
 * Handles. A handle has 8 bytes, and holds one pointer. It is a union whose first member is the number `wide`, so that `{0}`
 * sets all of it. All zero, it holds nothing: `fttcan_master m = {0};`, and `m.at` is null. What it holds belongs to it,
 * until its free, or a call that takes it. Never read or write what the pointer points at, never write the pointer, and
 * never copy a handle that holds something: two copies that are both used free the same memory twice. A struct that holds
 * the handle may be passed by its address.
 *
 * Threads. A handle is used by one call at a time, and never from an interrupt or a signal handler that can interrupt
 * another call of this library, or of the heap. Different handles may be used by different threads at the same time. A
 * snapshot or a planned change may be handed to another thread, as any memory is: by a lock, a queue, or the start or end
 * of a thread. So may a master or a standby, as long as one thread at a time uses it. Calls without a handle can run at
 * the same time, on different memory. What is proved is proved of calls in one thread. Of threads there is only a test,
 * library/tests/threads.c.
 */
#ifndef FTTCAN_H
#define FTTCAN_H
#include <stddef.h>
#include <stdint.h>
#ifdef __cplusplus
extern "C" {
#endif

/* The version of this header. fttcan_version answers that of the library. */
#define FTTCAN_VERSION_MAJOR 0
#define FTTCAN_VERSION_MINOR 4
#define FTTCAN_VERSION_PATCH 0
#define FTTCAN_VERSION ((uint32_t)((FTTCAN_VERSION_MAJOR << 16) | (FTTCAN_VERSION_MINOR << 8) | FTTCAN_VERSION_PATCH))

/* A size, a count, or a place among elements: 64 bits on each processor. Where pointers have 64 bits, this is size_t. */
typedef uint64_t fttcan_size;

/* Limits. */
enum {
    FTTCAN_MOST_OPS = 16,        /* operations of a change that may be accepted */
    FTTCAN_MOST_PLACED = 4096,   /* entries that a master or a standby keeps, ended ones included */
    FTTCAN_MOST_SLOTS = 96,      /* slots of a network, 40 or 96 */
    FTTCAN_LEAST_WINDOW = 55,    /* bit times */
    FTTCAN_LONGEST_WINDOW = 16383,
    FTTCAN_GREATEST_HORIZON = 100000, /* cycles */
    FTTCAN_MOST_CALLERS = 8,     /* operators are numbered from 1 */
    FTTCAN_MOST_FRAME_BITS = 135 /* the longest data frame, from its start to the third bit of intermission */
};

/* Statuses. */
enum {
    FTTCAN_OK = 0,          /* done */
    FTTCAN_MEMORY = 1,      /* memory ran out, or an accepted change has no room: more than 4,096 entries, or 2^64 - 1 were
                             * accepted. The call may be made again (settle: see there) */
    FTTCAN_ARGUMENT = 2,    /* an argument is out of its range */
    FTTCAN_TABLE = 3,       /* the table is not well placed: no master can have come to it */
    FTTCAN_STATE = 4,       /* the state can't be planned from, or no cycle may be opened any more */
    FTTCAN_ROOM = 5,        /* the caller's room is too small: the count says how many elements are needed */
    FTTCAN_MISS = 6,        /* fttcan_open: an instance would miss its deadline in this cycle */
    FTTCAN_CLOSED = 7,      /* the handle holds nothing, or by a cast what a handle of another kind holds */
    FTTCAN_OPEN = 8,        /* the handle that is to be filled holds something already */
    FTTCAN_TEXT = 9,        /* the text, the bytes or the frames are none of the form; no master has the bytes */
    FTTCAN_NO = 10,         /* a plan that does not keep the table; a log that is none of the run; a change that a standby
                             * would refuse; a trigger that is not the planned one; a stream without a bound; a node that
                             * offers, owes or counts nothing so; a message that is not whole yet */
    FTTCAN_UNFINISHED = 11, /* fttcan_audit: all rows can stand, and they are not all rows of a whole run */
    FTTCAN_FULL = 12        /* a node: as many wait, or as many entries would be known, as it was made for */
};

/* Policies and fillings of fttcan_rules. */
enum { FTTCAN_RM = 0, FTTCAN_DM = 1, FTTCAN_EDF = 2 };
enum { FTTCAN_PREFIX = 0, FTTCAN_SKIP = 1 };

/* Kinds of fttcan_op. */
enum { FTTCAN_ADD = 0, FTTCAN_REMOVE = 1, FTTCAN_CHANGE = 2 };

/* Kinds of fttcan_verdict. */
enum {
    FTTCAN_MALFORMED = 0,
    FTTCAN_PASSED = 1,
    FTTCAN_MISSED = 2,
    FTTCAN_HORIZON = 3,
    FTTCAN_ACCEPTED = 4
};

/* What a node heard in a frame: fttcan_node_trigger. */
enum {
    FTTCAN_OPENED = 0,    /* the trigger is whole: its cycle is open */
    FTTCAN_NOTED = 1,     /* the first one of two trigger frames, with 96 slots */
    FTTCAN_AGAIN = 2,     /* a trigger frame of the open cycle, which came before: nothing has changed */
    FTTCAN_NOT_TAKEN = 3, /* a trigger frame of no cycle that can be: nothing is sent until the next one that is taken */
    FTTCAN_OTHER = 4      /* no trigger frame: nothing has changed */
};

/* Kinds of fttcan_told. */
enum { FTTCAN_TELLS_CHANGE = 0, FTTCAN_TELLS_TABLE = 1 };

/* A set of slots: bit s of `low` is slot s, and bit s of `high` is slot s + 64. So `high` is below 2^32. */
typedef struct {
    uint64_t low, high;
} fttcan_mask;

/* A data frame with an identifier of 11 bits, 0 to 0x7EF, and `len` data bytes, 0 to 8. Bytes after them have no
 * meaning, and are written as 0. */
typedef struct {
    uint16_t id;
    uint8_t len;
    uint8_t bytes[8];
} fttcan_frame;

/* What a trigger says: the slots whose instances are sent in its cycle, the cycle, and the length of the cycle's
 * synchronous window in bit times, at most 16,383. On the bus a trigger has only the low 8 bits of the cycle. The bytes
 * stand in docs/FORMATS.md, "The trigger's bytes". */
typedef struct {
    fttcan_mask flags;
    uint64_t cycle;
    uint32_t window;
} fttcan_trigger;

/* The rules of a network. The library knows neither the length of a cycle nor the bit rate. The caller sees to it that the
 * trigger part (135 bit times, or 270 with 96 slots), the turnaround and the window fit into a cycle together. */
typedef struct {
    uint64_t horizon; /* within how many cycles the plan has to repeat: 1 to 100,000 */
    uint32_t window;  /* the largest synchronous window in bit times: 55 to 16,383 */
    uint8_t nodes;    /* 1 to 30; they are numbered from 0 */
    uint8_t slots;    /* 40 or 96; they are numbered from 0 */
    uint8_t policy;   /* FTTCAN_RM, FTTCAN_DM or FTTCAN_EDF */
    uint8_t fill;     /* FTTCAN_PREFIX or FTTCAN_SKIP */
} fttcan_rules;

/* An entry of the table: a periodic message. An accepted one is within the ranges in brackets. */
typedef struct {
    uint16_t phase;    /* cycles from the entry's origin to its first release */
    uint16_t period;   /* cycles from one release to the next (1 and more) */
    uint16_t deadline; /* cycles in which an instance may be sent, that of its release included (1 to the period) */
    uint8_t slot;      /* (below the number of slots); its frames have identifier 0x100 + slot */
    uint8_t node;      /* the node that sends it (below the number of nodes) */
    uint8_t length;    /* data bytes (0 to 8) */
    uint8_t priority;  /* of two with the same key the lower number goes first */
} fttcan_entry;

/* An entry in its place. Instance k is released in cycle origin + phase + k * period, if that is below the end. If
 * `ended` is 0 it has no end, and `end` has no meaning and is written as 0; any other value says that it has.
 *
 * A table is well placed if of each entry the slot is below 96, there are at most 8 data bytes, the deadline is 1 to the
 * period, origin and end are below 2^42, and the end is not below the origin. Of two entries of a slot the earlier one has an
 * end, and its end + deadline - 1 is at most the origin of the later one. Else a call that is passed the table answers
 * FTTCAN_TABLE. The slots and nodes of the rules are not looked at then. */
typedef struct {
    uint64_t origin, end;
    fttcan_entry entry;
    uint8_t ended;
} fttcan_placed;

/* An operation of a change. Of a removal the slot alone counts. */
typedef struct {
    uint8_t kind; /* FTTCAN_ADD, FTTCAN_REMOVE or FTTCAN_CHANGE; any other value is FTTCAN_ARGUMENT */
    fttcan_entry entry;
} fttcan_op;

/* What a cycle is planned from: the next cycle, and the slots with an instance that was released before it and not sent. The
 * cycle is at most 2^41, and each of these slots has an instance in the table that was released before the cycle and whose
 * last cycle is not below it. Else a call that is passed the state answers FTTCAN_STATE. */
typedef struct {
    uint64_t cycle;
    fttcan_mask pending;
} fttcan_state;

/* The answer to a change. Numbers that a kind does not name are 0.
 *
 * FTTCAN_MALFORMED: operation `op`, counted from 0, breaks rule `why`, 1 to 11 (fttcan_why_name). If `known` is 1 the
 *     rule is 10, and the slot is taken until cycle `first`: it is free from there on, or its entry begins then. If rule
 *     10 is broken and `known` is 0 the slot has an entry without an end. Rules 1 to 3 are about the whole change, and `op`
 *     says nothing then.
 * FTTCAN_PASSED: the start `first` is over, since cycle `second` is the next one.
 * FTTCAN_MISSED: the instance of `slot` that is released in cycle `first` would be missed in `second`, its last one.
 * FTTCAN_HORIZON: planned from cycle `first` on, no state came again within `second` cycles.
 * FTTCAN_ACCEPTED: the change holds from its start on. From cycle `first` on, which may be later, the plan does the same
 *     again every `second` cycles. No deadline is missed, ever, as long as the cycles are opened by this plan: up to the
 *     next accepted change, which has such a plan again. */
typedef struct {
    uint64_t first, second;
    uint8_t kind, op, why, slot, known;
} fttcan_verdict;

/* What one cycle sends: the slots, and the sum of the worst lengths of their frames, in bit times. */
typedef struct {
    fttcan_mask flags;
    uint32_t window;
} fttcan_plan;

/* What a master orders for a cycle that it opened: what its trigger says. The master is told nothing of the bus: what it
 * flags counts as sent. `learned` is 1 if the table has changed since the last opening: then the nodes are told the table
 * (fttcan_master_table) before the trigger is sent. docs/LIBRARY.md says how that is done on a real bus. */
typedef struct {
    uint64_t cycle;
    fttcan_mask flags;
    uint32_t window;
    uint8_t learned;
} fttcan_order;

/* Why a plan does not keep a table: the first breach. Numbers that a kind does not name are 0.
 * 0: the loop can't be that of a plan: an entry of `slot` does not repeat by it.
 * 1: in cycle `first` an instance of `slot` is sent that is not released, or was sent before.
 * 2: in cycle `first` the worst lengths sum to `second` bit times, which is more than the window.
 * 3: the instance of `slot` that is released in cycle `first` is not sent by cycle `second`, its last one.
 * 4: after the loop what waits of `slot` is not what waited before it.
 * After FTTCAN_TEXT `first` is the first line that breaks the form of a plan text, counted from 1, and the rest is as it was. */
typedef struct {
    uint64_t first, second;
    uint8_t kind, slot;
} fttcan_breach;

/* Why a standby does not follow a trigger: the first of these that fits. Numbers that a kind does not name are 0.
 * 0: the frames are not the trigger of cycle `first`, which is the next one.
 * 1: in cycle `first` the trigger flags `heard`, and `planned` is what the standby would flag.
 * 2: the trigger says a window of `first` bit times, and the flagged slots need `second`. */
typedef struct {
    fttcan_mask heard, planned;
    uint64_t first, second;
    uint8_t kind;
} fttcan_follow;

/* An elementary cycle in bit times: its length (400 to 100,000), the turnaround after the trigger (at most 1,000), the
 * largest synchronous window (55 to 16,383), and the slots (40 or 96). The trigger part takes 135 bit times, or 270 with
 * 96 slots. Trigger, turnaround and window together are at most the cycle. */
typedef struct {
    uint32_t cycle, turnaround, window;
    uint8_t slots;
} fttcan_layout;

/* A stream: the requests of an asynchronous identifier (0x200 to 0x7EF). Their frames have at most so many data bytes (0 to
 * 8). Each arrives at least `gap` bit times (1 to 2^32 - 1) after the one that stands `burst` places (1 to 1,024) before
 * it: so with a burst of 1 any two of them are that far apart. */
typedef struct {
    uint64_t gap;
    uint32_t burst;
    uint16_t id;
    uint8_t bytes;
} fttcan_stream;

/* Who sends an asynchronous identifier (0x200 to 0x7EF): the node of this number (0 to 29). */
typedef struct {
    uint16_t id;
    uint8_t node;
} fttcan_owner;

/* How a node is made. It never holds more than that, and takes no memory later. */
typedef struct {
    fttcan_size room;    /* how many requests may wait under each of its identifiers */
    fttcan_size entries; /* how many entries of its own it can know at once, ended ones included */
    uint8_t number;      /* its number (0 to 29) */
    uint8_t tolerance;   /* by how many cycles the count of fttcan_node_trigger may be off (0 to 127): 1 or 2 with a crystal, and
                          * at least 1 with 96 slots */
    uint8_t silent;      /* if 0, a slot without fitting bytes sends the number of its instance; else it is not sent */
} fttcan_settings;

/* What a node offers: an identifier, and the last bit time of the cycle at which its frame may start. */
typedef struct {
    uint32_t until;
    uint16_t id;
} fttcan_offer;

/* Which frame is in flight: that of an identifier, loaded in `cycle`. Of requests `number` counts those that were put under
 * the identifier, from 0. Of a slot it is 0. */
typedef struct {
    uint64_t cycle, number;
    uint16_t id;
} fttcan_ticket;

/* A frame for the controller, and its ticket. `users` is 1 if its bytes were put or set, and 0 if they are the number of the
 * instance. */
typedef struct {
    fttcan_ticket ticket;
    fttcan_frame frame;
    uint8_t users;
} fttcan_loaded;

/* A slot that a node owes in the open cycle: the first and the last bit time of the cycle at which its frame may start;
 * whether the frame is in flight (1 or 0); and whether its bytes are those that were set (1), or the number of the instance. */
typedef struct {
    uint32_t start, last;
    uint8_t loaded, users;
} fttcan_due;

/* What a message told: a change that holds from cycle `start` on, or a table. `number` is that of the change, or of the last
 * change that the table has. `count` is how many operations or entries there are. Of a table `start` is 0. */
typedef struct {
    uint64_t start;
    uint32_t number;
    uint16_t count;
    uint8_t kind; /* FTTCAN_TELLS_CHANGE or FTTCAN_TELLS_TABLE */
} fttcan_told;

/* How much of a message was collected. All zero, that is nothing. Its bytes are in the room of fttcan_collect. */
typedef struct {
    uint32_t parts, wanted; /* the frames that came, and how many there are, 0 as long as that is not known */
    uint32_t last;          /* the bytes of the last frame, if it came */
    uint8_t number, begun, whole;
} fttcan_collected;

/* A master: the table, the next cycle and what is pending before it. */
typedef union {
    uint64_t wide;
    void *at;
} fttcan_master;

/* A standby, which follows a master. */
typedef union {
    uint64_t wide;
    void *at;
} fttcan_standby;

/* What a change is planned from, apart from its master. */
typedef union {
    uint64_t wide;
    void *at;
} fttcan_snapshot;

/* A change that was planned apart from its master, and not settled yet. */
typedef union {
    uint64_t wide;
    void *at;
} fttcan_planned;

/* A node: its entries, requests and bytes, and the cycle that is open for it. It is of a part of the library that is linked
 * apart: never pass it to a call of another handle by a cast. */
typedef union {
    uint64_t wide;
    void *at;
} fttcan_node;

/* The version of the library: major << 16 | minor << 8 | patch. */
uint32_t fttcan_version(void);

/* ---- A master. Its memory does not grow with the cycles that it opens, and it has room for FTTCAN_MOST_PLACED entries.
 *      Each call but _new, _restore and _free answers FTTCAN_CLOSED if `m` holds nothing. */

/* Makes a master with these rules and no entry, whose next cycle is 0.
 * FTTCAN_OPEN: `m` holds one already. FTTCAN_ARGUMENT: a rule is out of its range. FTTCAN_MEMORY. */
uint32_t fttcan_master_new(fttcan_master *m, const fttcan_rules *rules);

/* Lets go what `m` holds, if anything. It is all zero then, and may be filled again. */
void fttcan_master_free(fttcan_master *m);

/* Answers the change of operator `caller`, 1 to 8, that begins in cycle `start`. All its operations are done, or none.
 * The table changes only if the verdict is FTTCAN_ACCEPTED. FTTCAN_OK says that `verdict` is the answer, whatever it
 * is. Time: see docs/LIBRARY.md; it grows with the cycles up to the repeat, at most the horizon.
 * FTTCAN_ARGUMENT: the caller, or a kind of operation. FTTCAN_MEMORY: also if more entries than FTTCAN_MOST_PLACED would be
 * kept, or 2^64 - 1 changes were accepted. */
uint32_t fttcan_master_submit(fttcan_master *m, uint8_t caller, uint64_t start, const fttcan_op *ops, fttcan_size ops_count,
                              fttcan_verdict *verdict);

/* What led to the last answer of this master, if that was FTTCAN_MISSED: what each cycle would have sent, up to the missed
 * one, which is cycle `second` of the verdict. The first one is the next cycle then, and after fttcan_master_settle it may be
 * the next one of the snapshot: second + 1 - count in any case. After any other answer, and if there was none, `count` is
 * 0. FTTCAN_ROOM: `count` is written, and nothing else. FTTCAN_MEMORY. */
uint32_t fttcan_master_trail(fttcan_master *m, fttcan_mask *room, fttcan_size room_count, fttcan_size *count);

/* Answers the next cycle to operator `caller`, 1 to 8. FTTCAN_ARGUMENT: the caller. */
uint32_t fttcan_master_look(fttcan_master *m, uint8_t caller, uint64_t *next);

/* Plans and opens the next cycle. No deadline is missed in it. It takes no memory, and time for the entries that are
 * released in it. FTTCAN_STATE: 2^41 cycles were opened, which is the end. */
uint32_t fttcan_master_open(fttcan_master *m, fttcan_order *order);

/* What fttcan_master_open would flag now. It changes nothing. FTTCAN_STATE: as there. */
uint32_t fttcan_master_planned(fttcan_master *m, fttcan_mask *flags);

/* The next cycle to be opened. */
uint32_t fttcan_master_next(fttcan_master *m, uint64_t *cycle);

/* The rules of the master: those with which it was made, or the standby that it was, or which its saved bytes had. */
uint32_t fttcan_master_rules(fttcan_master *m, fttcan_rules *rules);

/* The placed entries that the master keeps, in the order of their placing. Ended ones are among them: when a change is
 * accepted those are let go that are over and have a later entry in their slot. Over means by the cycle from which the
 * change was planned: that of the snapshot, if fttcan_master_settle takes a plan that was made from one. `count` is how
 * many there are. FTTCAN_ROOM: `count` is written, and nothing else. FTTCAN_MEMORY. */
uint32_t fttcan_master_table(fttcan_master *m, fttcan_placed *room, fttcan_size room_count, fttcan_size *count);

/* The text of the plan from the next cycle on, up to the end of its first repeat: `len` bytes, without a 0 at the end.
 * fttcan_check takes it together with the table and the window of the rules: it answers FTTCAN_OK then, or FTTCAN_MEMORY.
 * Time: twice that of planning the table. FTTCAN_ROOM: `len` is written, and nothing else. FTTCAN_MEMORY. */
uint32_t fttcan_master_certificate(fttcan_master *m, uint8_t *room, fttcan_size room_len, fttcan_size *len);

/* The state of the master as bytes, the same on every machine: 112, and 80 more for each entry that it keeps. No other
 * state has these bytes. The trail of the last answer is not among them, nor what was answered before. FTTCAN_ROOM: `len` is
 * written, and nothing else. FTTCAN_MEMORY. */
uint32_t fttcan_master_save(fttcan_master *m, uint8_t *room, fttcan_size room_len, fttcan_size *len);

/* Makes the master that has these bytes: of what fttcan_master_save wrote, the one that was saved, without its trail.
 * The bytes are not trusted. Of any that are not refused it makes a master that misses no deadline.
 *
 * It checks the checksum, the form, the rules, the table and the state, and plans the table once, for its time. FTTCAN_TEXT:
 * no master has these bytes: they are none of the form, a number is out of its range, a slot or a node of an entry is none of
 * the rules, a deadline would be missed, the plan does not repeat within the horizon, or there are too many entries. Bytes
 * that fttcan_master_save wrote are never answered so.
 *
 * It cannot check where the bytes come from, since the checksum is no signature: whether they are the newest, whether they
 * are of this network, and whether any history of answered changes and opened cycles leads to them. What follows from old
 * bytes, or from another network's, is a plan that keeps its own table, and not the one that the nodes have.
 * FTTCAN_OPEN: `m` holds one already. FTTCAN_MEMORY. */
uint32_t fttcan_master_restore(fttcan_master *m, const uint8_t *bytes, fttcan_size len);

/* ---- A change that is planned in another thread while cycles are opened: a snapshot is taken, planned from apart, and
 *      settled. _plan_apart takes long. _settle takes time for the entries and for the cycles that were opened since the
 *      snapshot, and long if it has to plan anew. */

/* Takes what changes are planned from. FTTCAN_OPEN: `s` holds something. FTTCAN_CLOSED: `m` holds no master. FTTCAN_MEMORY. */
uint32_t fttcan_master_snapshot(fttcan_master *m, fttcan_snapshot *s);

/* Lets go what `s` holds, if anything. */
void fttcan_snapshot_free(fttcan_snapshot *s);

/* Plans a change apart from the master, and takes the snapshot: after FTTCAN_OK `s` holds nothing, and `p` the planned
 * change. After any other status both are as they were. FTTCAN_OPEN: `p` holds something. FTTCAN_CLOSED: `s` holds no
 * snapshot. FTTCAN_ARGUMENT: a kind of operation. FTTCAN_MEMORY. */
uint32_t fttcan_plan_apart(fttcan_snapshot *s, uint64_t start, const fttcan_op *ops, fttcan_size ops_count, fttcan_planned *p);

/* What the planned change would be answered, if the master had not gone on since its snapshot. FTTCAN_CLOSED alone. */
uint32_t fttcan_planned_verdict(fttcan_planned *p, fttcan_verdict *verdict);

/* Lets go what `p` holds, if anything. */
void fttcan_planned_free(fttcan_planned *p);

/* Has the master answer a planned change, for operator `caller`, 1 to 8. That plan decides exactly if it leads to the
 * master: rules, table and number of accepted changes are those of the snapshot, and the plan from there comes to the next
 * cycle with the same slots pending. So it does if the master has only opened cycles since the snapshot. The answer is then
 * that of fttcan_planned_verdict, but that a start which has passed since is refused. Else the change is planned anew, from
 * the next cycle on, in this call. After FTTCAN_OK `p` holds nothing, and `verdict` is the answer. FTTCAN_MEMORY: `p` holds
 * nothing then either, and the master is as it was: the change is asked for anew. After any other status `p` and the master
 * are as they were. FTTCAN_CLOSED: `m` holds no master, or `p` no planned change. FTTCAN_ARGUMENT: both do, and the caller
 * is not 1 to 8. */
uint32_t fttcan_master_settle(fttcan_master *m, uint8_t caller, fttcan_planned *p, fttcan_verdict *verdict);

/* ---- A standby: it is told the accepted changes and hears the triggers, and takes over from there. Each call but _new and
 *      _free answers FTTCAN_CLOSED if `s` holds nothing. _take_over looks first whether `m` holds something already. */

/* Makes a standby of a master with these rules that has answered nothing yet. Statuses as fttcan_master_new. */
uint32_t fttcan_standby_new(fttcan_standby *s, const fttcan_rules *rules);

/* Lets go what `s` holds, if anything. */
void fttcan_standby_free(fttcan_standby *s);

/* Tells the standby a change that the master has accepted. FTTCAN_OK: the standby accepts it too, and `verdict` is its
 * answer, planned from its own next cycle on. The change takes effect in cycle `start`, which the standby has not opened yet.
 * FTTCAN_NO: it would not accept it, `verdict` says what it would answer, and it is as it was. That never comes if the
 * standby followed all openings and accepted changes before this one. FTTCAN_ARGUMENT: the caller, or a kind of operation.
 * FTTCAN_MEMORY: as fttcan_master_submit. */
uint32_t fttcan_standby_change(fttcan_standby *s, uint8_t caller, uint64_t start, const fttcan_op *ops, fttcan_size ops_count,
                               fttcan_verdict *verdict);

/* Tells the standby the trigger frames of its next cycle: one with 40 slots, two with 96. FTTCAN_OK: they say what its own
 * plan has for that cycle, and the next cycle is one later. FTTCAN_NO: they do not, `fault` says why, and the standby is as
 * it was. So after a trigger that it missed, it does not follow the next ones. FTTCAN_ARGUMENT: a frame that is none.
 * FTTCAN_STATE: 2^41 cycles were opened. It takes no memory. */
uint32_t fttcan_standby_trigger(fttcan_standby *s, const fttcan_frame *frames, fttcan_size frames_count, fttcan_follow *fault);

/* The same for triggers whose window is longer by a reserve, as fttcan_trigger_encode_reserved makes them. If the fault is
 * of kind 2, its `second` is what the flagged slots and the reserve need together. */
uint32_t fttcan_standby_trigger_reserved(fttcan_standby *s, uint32_t reserve, const fttcan_frame *frames, fttcan_size frames_count,
                                         fttcan_follow *fault);

/* The next cycle whose trigger the standby expects. */
uint32_t fttcan_standby_next(fttcan_standby *s, uint64_t *cycle);

/* Makes a master of the standby, which goes on from its next cycle: after FTTCAN_OK `s` holds nothing, and `m` the master.
 * FTTCAN_OPEN: `m` holds one already. After any status but FTTCAN_OK both are as they were. It takes no memory. */
uint32_t fttcan_standby_take_over(fttcan_standby *s, fttcan_master *m);

/* ---- The stateless pair: the caller keeps table and state. */

/* Decides of a change of a table whose next cycle is that of the state. If the verdict is FTTCAN_ACCEPTED, the changed
 * table is written to `room`, and `count` is its length. Else nothing is written to `room`, and `count` is 0. The state stays
 * as it is. Entries that are over stay in the table.
 * FTTCAN_ARGUMENT: a rule, or a kind of operation. FTTCAN_TABLE. FTTCAN_STATE. FTTCAN_ROOM: `count` is written, and nothing
 * else; the changed table has at most placed_count + ops_count entries. FTTCAN_MEMORY. */
uint32_t fttcan_decide(const fttcan_rules *rules, const fttcan_placed *placed, fttcan_size placed_count, const fttcan_state *state,
                       uint64_t start, const fttcan_op *ops, fttcan_size ops_count, fttcan_verdict *verdict, fttcan_placed *room,
                       fttcan_size room_count, fttcan_size *count);

/* Plans the cycle of a state, and makes the state that of the next one. No FTTCAN_MISS ever comes if all calls have the
 * same rules, each call is passed the table of the last accepted verdict of fttcan_decide, and each state is that of the last
 * call of this one. At first the table has no entry, and the state is {0, {0, 0}}.
 * FTTCAN_ARGUMENT: a rule. FTTCAN_TABLE. FTTCAN_STATE: also if the cycle is 2^41. FTTCAN_MISS. FTTCAN_MEMORY. */
uint32_t fttcan_open(const fttcan_rules *rules, const fttcan_placed *placed, fttcan_size placed_count, fttcan_state *state,
                     fttcan_plan *plan);

/* ---- A checker of plans, whoever made them. */

/* Whether the text of a plan keeps a table for ever within a window of so many bit times: FTTCAN_OK, or FTTCAN_NO, and
 * then `breach` says why. The plan begins in its cycle FROM, with its slots PENDING. FTTCAN_TEXT: `breach->first` is the
 * first wrong line. FTTCAN_STATE: a slot of PENDING has no instance that was released before FROM and may be sent then, or a
 * cycle of the plan is 2^42 or above. FTTCAN_TABLE. FTTCAN_MEMORY. */
uint32_t fttcan_check(const fttcan_placed *placed, fttcan_size placed_count, uint32_t window, const uint8_t *text, fttcan_size text_len,
                      fttcan_breach *breach);

/* ---- Frames: CAN 2.0 part A, data frames. An identifier is 0 to 0x7EF, and there are 0 to 8 data bytes; all else is
 *      FTTCAN_ARGUMENT. */

/* The length of the frame on the wire in bit times, stuff bits included, from its start to the third bit of intermission. */
uint32_t fttcan_wire_length(uint16_t id, const uint8_t *data, fttcan_size len, uint32_t *bits);

/* The bits of the frame on the wire, one a byte, 0 dominant and 1 recessive: as many as fttcan_wire_length says, at most
 * FTTCAN_MOST_FRAME_BITS. FTTCAN_ROOM: `count` is written, and nothing else. FTTCAN_MEMORY. */
uint32_t fttcan_wire_bits(uint16_t id, const uint8_t *data, fttcan_size len, uint8_t *room, fttcan_size room_len, fttcan_size *count);

/* The frame that has these bits on the wire, one a byte, 0 or 1. FTTCAN_TEXT: no frame has them, and `place` is the place
 * of the first one that can't stand, counted from 0; if they end early, or have another CRC sequence, it is their
 * number. FTTCAN_ARGUMENT: a byte above 1. FTTCAN_MEMORY. */
uint32_t fttcan_read_wire(const uint8_t *bits, fttcan_size count, fttcan_frame *frame, fttcan_size *place);

/* The trigger frames of a cycle: one with 40 slots, two with 96. FTTCAN_ARGUMENT: the slots, a window above 16,383, or a
 * flag of a slot that the network does not have. FTTCAN_ROOM: `count` is written, and nothing else. */
uint32_t fttcan_trigger_encode(uint8_t slots, const fttcan_trigger *trigger, fttcan_frame *room, fttcan_size room_count, fttcan_size *count);

/* The same, with a window that is longer by `reserve` bit times: order.window + reserve. So the nodes begin so much earlier,
 * and what the window needs for disturbances is there (fttcan_reserve). FTTCAN_ARGUMENT: also if both together are above
 * 16,383. */
uint32_t fttcan_trigger_encode_reserved(uint8_t slots, const fttcan_trigger *trigger, uint32_t reserve, fttcan_frame *room,
                                        fttcan_size room_count, fttcan_size *count);

/* What trigger frames say: one with 40 slots, two with 96. `trigger->cycle` is the low 8 bits of their cycle. FTTCAN_TEXT: the
 * frames are no trigger, or not so many. FTTCAN_ARGUMENT: the slots, or a frame that is none. */
uint32_t fttcan_trigger_decode(uint8_t slots, const fttcan_frame *frames, fttcan_size frames_count, fttcan_trigger *trigger);

/* The data bytes of instance `number` of an entry, as the nodes of the simulated bus send them: the number's last `len`
 * bytes, the highest first. FTTCAN_ARGUMENT: `len` is above 8. */
uint32_t fttcan_payload(uint64_t number, uint8_t *room, fttcan_size len);

/* Whether an asynchronous data frame with `dlc` data bytes may start at bit time `at`, which is counted from the start of
 * cycle 0: after the turnaround of its cycle, and so that at its longest it ends before the synchronous window of that
 * cycle, which has `window` bit times. `*fits` is 1 if so, else 0. FTTCAN_ARGUMENT: the layout, `dlc` above 8, or a window above that of the layout. */
uint32_t fttcan_fits(const fttcan_layout *layout, uint64_t at, uint8_t dlc, uint32_t window, uint8_t *fits);

/* How late the frames of the stream at the place `which` (from 0) start at most, if all requests belong to the streams:
 * less than `*start` bit times after the arrival of the request. So they end less than `*start` + 55 + 10 * bytes after
 * it, intermission included. It is the least number that the test of docs/ASYNC.md lets pass. FTTCAN_NO: none does up to
 * the `gap` of the stream. FTTCAN_ARGUMENT: the layout, a stream, `which`, or more than 2,048 streams. */
uint32_t fttcan_async_bound(const fttcan_layout *layout, const fttcan_stream *streams, fttcan_size streams_count, fttcan_size which,
                            uint64_t *start);

/* ---- Disturbances. docs/LIBRARY.md has the conditions under which a reserve is enough. */

/* How much longer than its frames a window has to be for so many disturbances, in bit times, if no frame on the bus has more
 * than `bytes` data bytes (0 to 8): for each one 83 + 10 * bytes, so 163 with 8. FTTCAN_ARGUMENT: `bytes` is above 8. */
uint32_t fttcan_reserve(uint16_t errors, uint8_t bytes, uint32_t *reserve);

/* For how many disturbances a reserve of so many bit times is enough. FTTCAN_ARGUMENT: `bytes` is above 8. */
uint32_t fttcan_errors_within(uint32_t reserve, uint8_t bytes, uint32_t *errors);

/* ---- A node: it learns its entries, takes requests and bytes, hears triggers, and says what is to be sent, and when.
 *      docs/LIBRARY.md says what its driver does.
 *
 *      `into` and all times are bit times from the start of the first trigger frame of the open cycle, as the driver counts
 *      them. So nothing wraps around. A time of 2^32 and above is behind each cycle. Frames that others send need not be
 *      told. Each call but _new and _free answers FTTCAN_CLOSED if `n` holds nothing. Only _new and _learn take memory, and
 *      what _learn takes it gives back. */

/* Makes a node, which knows no entries, and takes no trigger before its first fttcan_node_go_to. `layout->window` is the
 * largest window that a trigger says: with the reserve, if there is one. The owners may be those of all nodes, and each
 * node is given the same ones. FTTCAN_OPEN: `n` holds one already. FTTCAN_ARGUMENT: the layout, the number or the tolerance;
 * an owner that is out of its range, or an identifier that stands twice. FTTCAN_MEMORY. */
uint32_t fttcan_node_new(fttcan_node *n, const fttcan_layout *layout, const fttcan_settings *settings, const fttcan_owner *owners,
                         fttcan_size owners_count);

/* Lets go what `n` holds, if anything. It is all zero then, and may be filled again. */
void fttcan_node_free(fttcan_node *n);

/* Replaces what the node knows by the entries of its number in a table: that of fttcan_master_table or fttcan_apply. A change
 * is learnt before its start. In an open cycle what is offered may change at once: ask again. The bytes of a slot are kept
 * if the last entry of the slot, in the order of the table, has the same origin as before, and forgotten otherwise.
 * FTTCAN_TABLE. FTTCAN_FULL: more entries of its number than it was made for; all is as it was. FTTCAN_MEMORY. */
uint32_t fttcan_node_learn(fttcan_node *n, const fttcan_placed *placed, fttcan_size placed_count);

/* The table after a change that a master has accepted, without a plan: so a node follows changes without a master. Entries
 * that are over stay. FTTCAN_ARGUMENT: a kind of operation. FTTCAN_TABLE. FTTCAN_NO: no master accepts the change: it breaks a
 * rule (fttcan_why_name), even with 96 slots and 30 nodes. FTTCAN_ROOM: `count` is written, and nothing else; the table has at
 * most placed_count + ops_count entries then. FTTCAN_MEMORY. */
uint32_t fttcan_apply(const fttcan_placed *placed, fttcan_size placed_count, uint64_t start, const fttcan_op *ops, fttcan_size ops_count,
                      fttcan_placed *room, fttcan_size room_count, fttcan_size *count);

/* Says that the next trigger which the node takes is that of `cycle`, or of a later one. It is needed once before the first
 * trigger, and after a restart. The open cycle is closed. FTTCAN_ARGUMENT: the cycle is before fttcan_node_next, or above
 * 2^42. */
uint32_t fttcan_node_go_to(fttcan_node *n, uint64_t cycle);

/* Tells the node a frame that may be a trigger frame. `passed` is how many cycles have gone by, by the driver's clock, since
 * the last trigger that was taken, without one: 0 if none was missed. It may be off by the tolerance. The node never goes
 * back. `heard` is FTTCAN_OPENED and so on; before the first fttcan_node_go_to it is FTTCAN_NOT_TAKEN. FTTCAN_ARGUMENT: the
 * frame is none. */
uint32_t fttcan_node_trigger(fttcan_node *n, const fttcan_frame *frame, uint32_t passed, uint8_t *heard);

/* Sets the bytes that a slot sends from the next fttcan_node_load on, until others are set. They are sent if they are as many as
 * the slot's entry says. FTTCAN_ARGUMENT: the layout has no such slot, or more than 8 bytes. */
uint32_t fttcan_node_set(fttcan_node *n, uint8_t slot, const uint8_t *bytes, fttcan_size bytes_len);

/* Puts a request, an asynchronous frame, behind those of its identifier. FTTCAN_FULL: as many wait as it has room for.
 * FTTCAN_ARGUMENT: the frame is none, or its identifier is none of the node's own. */
uint32_t fttcan_node_put(fttcan_node *n, const fttcan_frame *frame);

/* Drops the oldest request that waits under an identifier. FTTCAN_NO: none waits, or that one is in flight. FTTCAN_ARGUMENT: the
 * identifier is none of the node's own. */
uint32_t fttcan_node_drop(fttcan_node *n, uint16_t id);

/* How many requests wait under an identifier, with the one in flight. FTTCAN_ARGUMENT: as _drop. */
uint32_t fttcan_node_waiting(fttcan_node *n, uint16_t id, fttcan_size *count);

/* What the node offers at a time: the least identifier that waits, is not in flight, and still ends where it has to. `until`
 * is the last time at which it offers the same, as long as nothing is told it. FTTCAN_NO: nothing. */
uint32_t fttcan_node_offer(fttcan_node *n, uint64_t into, fttcan_offer *offer);

/* The first time after `into` at which the node offers something, as long as nothing is told it. FTTCAN_NO: none in this cycle. */
uint32_t fttcan_node_wake(fttcan_node *n, uint64_t into, uint64_t *time);

/* The frame of what the node offers at a time: a look. FTTCAN_NO: it does not offer this identifier then. */
uint32_t fttcan_node_frame(fttcan_node *n, uint64_t into, uint16_t id, fttcan_frame *frame);

/* Takes the frame of what the node offers at a time, for the controller. The identifier is in flight from then on, and not
 * offered, until its ticket is told as sent or withdrawn: so the next call of fttcan_node_offer says what goes into the next
 * mailbox. A slot in flight is free again when the next cycle is opened. FTTCAN_NO: as _frame. */
uint32_t fttcan_node_load(fttcan_node *n, uint64_t into, uint16_t id, fttcan_loaded *loaded);

/* Tells the node that the frame of a ticket was sent, even if it was told as withdrawn before. FTTCAN_NO: that changes
 * nothing: it was told already, or its cycle is over. */
uint32_t fttcan_node_sent(fttcan_node *n, const fttcan_ticket *ticket);

/* Tells the node that the frame of a ticket was not sent, and will not be. It is offered again. FTTCAN_NO: it is not in
 * flight, and nothing has changed. */
uint32_t fttcan_node_withdrawn(fttcan_node *n, const fttcan_ticket *ticket);

/* The slots that the node owes in the open cycle: flagged, with an instance, and not told as sent. Just before the next
 * trigger these were missed. If no cycle is open there are none. */
uint32_t fttcan_node_due(fttcan_node *n, fttcan_mask *slots);

/* When a slot that the node owes may start. FTTCAN_NO: it does not owe it. */
uint32_t fttcan_node_slot_due(fttcan_node *n, uint8_t slot, fttcan_due *due);

/* The frame of a slot that the node owes: a look. FTTCAN_NO: it does not owe it. */
uint32_t fttcan_node_slot_frame(fttcan_node *n, uint8_t slot, fttcan_frame *frame);

/* The least cycle whose trigger the node can take. */
uint32_t fttcan_node_next(fttcan_node *n, uint64_t *cycle);

/* The open cycle, what its trigger flagged, and its window. FTTCAN_NO: no cycle is open, as between two trigger frames. */
uint32_t fttcan_node_opened(fttcan_node *n, fttcan_trigger *opened);

/* ---- What a master tells its nodes: a change that it accepted, and the table, in frames with an identifier of your own
 *      choice. docs/FORMATS.md, "Changes on the wire", has the bytes, and docs/LIBRARY.md who sends what when. Frames may be
 *      lost, doubled, or come in another order: then no message comes out, and never a wrong one, as far as a CRC-32 tells.
 *      Nothing of this is proved. */

/* The bytes of a message for a table of `count` entries, and the room that fttcan_collect needs for it. A change of 16
 * operations is shorter than a table of 9 entries. */
#define FTTCAN_MESSAGE_BYTES(count) (11 + 22 * (count))
#define FTTCAN_COLLECT_ROOM(count) (FTTCAN_MESSAGE_BYTES(count) + FTTCAN_MESSAGE_BYTES(count) / 40 + 1)

/* The frames that tell an accepted change. `number` counts the changes that were accepted, with this one. FTTCAN_ARGUMENT: the
 * identifier is not 0x200 to 0x7EF, the start is 2^40 or more, an operation is of no kind, or there are none or more than
 * 16 of them. FTTCAN_ROOM: `count` is written, and nothing else. */
uint32_t fttcan_change_encode(uint16_t id, uint32_t number, uint64_t start, const fttcan_op *ops, fttcan_size ops_count,
                              fttcan_frame *room, fttcan_size room_count, fttcan_size *count);

/* The frames that tell a table, after the change of this number. FTTCAN_ARGUMENT: the identifier, more than 4,096 entries, or an
 * origin or end from 2^42 on. FTTCAN_ROOM: `count` is written, and nothing else. */
uint32_t fttcan_table_encode(uint16_t id, uint32_t number, const fttcan_placed *placed, fttcan_size placed_count,
                             fttcan_frame *room, fttcan_size room_count, fttcan_size *count);

/* Collects a frame of such a message. Each identifier has a `collected` and a room of its own. FTTCAN_OK: the message is
 * whole, and `told` says what it is: read it by the next two calls, before the next frame. FTTCAN_NO: not yet. FTTCAN_TEXT: the
 * frame is none of a message, or its sum is wrong. FTTCAN_ROOM: the message is longer than the room. `told` is written at
 * FTTCAN_OK alone. After any status the next frame may follow: a frame of another message begins that one, and forgets what
 * was not whole. FTTCAN_ARGUMENT: the frame is none, or `collected` is none that this call has left. */
uint32_t fttcan_collect(fttcan_collected *collected, const fttcan_frame *frame, uint8_t *room, fttcan_size room_len, fttcan_told *told);

/* The operations of a change that is whole in the room. Of a removal all but the slot is 0. FTTCAN_TEXT: the room holds no
 * change. FTTCAN_ROOM: `count` is written, and nothing else. */
uint32_t fttcan_change_decode(const uint8_t *text, fttcan_size text_len, fttcan_told *told, fttcan_op *room, fttcan_size room_count,
                              fttcan_size *count);

/* The table that is whole in the room. FTTCAN_TEXT: the room holds no table. FTTCAN_ROOM: as _change_decode. */
uint32_t fttcan_table_decode(const uint8_t *text, fttcan_size text_len, fttcan_told *told, fttcan_placed *room,
                             fttcan_size room_count, fttcan_size *count);

/* ---- Whole commands over memory. They are a second object of the library, which is linked only if they are called. */

/* Carries out the words of a call of the program fttcan, between which bytes 0 stand: every command but live. Its files are
 * named 0, 1, 2 and 3. What it writes goes to `out`, what it says of a fault to `err`, each as far as there is room, and
 * the counts are how much. What stands after so many bytes stays as it is. It answers the exit status of the program, 0 to
 * 7: 5 comes only if `out` is full. After 5 and 6 `out` may have the first bytes of the answer, and after 2, 3 and 4 it has
 * none. docs/FORMATS.md has the words, the files and their limits, and the statuses. Words that are no UTF-8 are status 2,
 * and want of memory is status 6. */
uint32_t fttcan_run(const uint8_t *words, fttcan_size words_len, const uint8_t *file0, fttcan_size len0, const uint8_t *file1, fttcan_size len1,
                    const uint8_t *file2, fttcan_size len2, const uint8_t *file3, fttcan_size len3, uint8_t *out, fttcan_size out_len,
                    fttcan_size *out_count, uint8_t *err, fttcan_size err_len, fttcan_size *err_count);

/* Whether a log, whoever made it, is that of a whole run of the steps. If the requests have no bytes there are none. The
 * limits on the length of files do not hold here.
 * FTTCAN_OK: it is. FTTCAN_NO: `row` is the first row that can't stand, counted from 1. FTTCAN_UNFINISHED: all rows can stand,
 * and they are not all rows of a whole run. FTTCAN_TEXT: a file is refused. FTTCAN_MEMORY. */
uint32_t fttcan_audit(const uint8_t *system, fttcan_size system_len, const uint8_t *steps, fttcan_size steps_len, const uint8_t *log,
                      fttcan_size log_len, const uint8_t *requests, fttcan_size requests_len, uint64_t *row);

/* ---- Words for people. They need nothing of the library, nor of a C library. */

/* The name of a status, as "room". */
static inline const char *fttcan_status_name(uint32_t status) {
    switch (status) {
    case FTTCAN_OK: return "ok";
    case FTTCAN_MEMORY: return "memory";
    case FTTCAN_ARGUMENT: return "argument";
    case FTTCAN_TABLE: return "table";
    case FTTCAN_STATE: return "state";
    case FTTCAN_ROOM: return "room";
    case FTTCAN_MISS: return "miss";
    case FTTCAN_CLOSED: return "closed";
    case FTTCAN_OPEN: return "open";
    case FTTCAN_TEXT: return "text";
    case FTTCAN_NO: return "no";
    case FTTCAN_UNFINISHED: return "unfinished";
    case FTTCAN_FULL: return "full";
    default: return "unknown";
    }
}

/* The word of a verdict's kind, as the log has it: "accepted". */
static inline const char *fttcan_verdict_name(uint8_t kind) {
    switch (kind) {
    case FTTCAN_MALFORMED: return "malformed";
    case FTTCAN_PASSED: return "passed";
    case FTTCAN_MISSED: return "miss";
    case FTTCAN_HORIZON: return "horizon";
    case FTTCAN_ACCEPTED: return "accepted";
    default: return "unknown";
    }
}

/* What rule `why` of a malformed change says of its operation. */
static inline const char *fttcan_why_name(uint8_t why) {
    switch (why) {
    case 1: return "the change has no operation";
    case 2: return "the change has more than 16 operations";
    case 3: return "the start is 2^40 or more";
    case 4: return "the network has no such slot";
    case 5: return "an earlier operation of the change has the slot";
    case 6: return "the network has no such node";
    case 7: return "more than 8 data bytes";
    case 8: return "the period is 0";
    case 9: return "the deadline is 0, or above the period";
    case 10: return "the slot is taken";
    case 11: return "no entry of the slot is live";
    default: return "unknown";
    }
}

/* A verdict as a sentence, with a 0 at its end, cut if `room_len` bytes are too few. It answers the bytes of the whole
 * sentence, without the 0. 160 bytes hold each of them. */
static inline size_t fttcan_verdict_words(const fttcan_verdict *verdict, char *room, size_t room_len) {
    /* In a form, % stands for the next number. */
    const char *form = "unknown verdict";
    uint64_t numbers[3] = {0, 0, 0};
    size_t at = 0, next = 0;
    switch (verdict->kind) {
    case FTTCAN_MALFORMED:
        form = verdict->known ? "malformed: operation %: & until cycle %"
            : verdict->why == 10 ? "malformed: operation %: & by a live entry" : "malformed: operation %: &";
        numbers[0] = verdict->op;
        numbers[1] = verdict->first;
        break;
    case FTTCAN_PASSED:
        form = "passed: the start, cycle %, is over, and the next cycle is %";
        numbers[0] = verdict->first;
        numbers[1] = verdict->second;
        break;
    case FTTCAN_MISSED:
        form = "miss: slot %, released in cycle %, would not be sent by cycle %, its last one";
        numbers[0] = verdict->slot;
        numbers[1] = verdict->first;
        numbers[2] = verdict->second;
        break;
    case FTTCAN_HORIZON:
        form = "horizon: from cycle % on, no repeat of the plan within % cycles";
        numbers[0] = verdict->first;
        numbers[1] = verdict->second;
        break;
    case FTTCAN_ACCEPTED:
        form = verdict->second == 1 ? "accepted: from cycle % on the plan repeats every cycle"
            : "accepted: from cycle % on the plan repeats every % cycles";
        numbers[0] = verdict->first;
        numbers[1] = verdict->second;
        break;
    default: break;
    }
    for (; *form; form++) {
        char digits[24];
        const char *part = digits;
        size_t place = sizeof digits - 1;
        digits[place] = 0;
        if (*form == '%') {
            uint64_t number = numbers[next++];
            do {
                digits[--place] = (char)('0' + number % 10);
                number /= 10;
            } while (number);
            part = digits + place;
        } else if (*form == '&') {
            part = fttcan_why_name(verdict->why);
        } else {
            digits[--place] = *form;
            part = digits + place;
        }
        for (; *part; part++, at++)
            if (at + 1 < room_len)
                room[at] = *part;
    }
    if (room_len)
        room[at < room_len ? at : room_len - 1] = 0;
    return at;
}

#ifdef __cplusplus
}
#endif
#endif
