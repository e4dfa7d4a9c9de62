// A test of the header as C++11 has it: a kernel that frees itself, events by functions, a switch over each enum.
//
// It prints a line for each test, and ends with status 1 at the first thing that is not as it should be.

#include "lot.h"
#include "lot.hpp"

#include <cstdio>
#include <cstdlib>
#include <cstring>
#include <stdexcept>
#include <type_traits>
#include <utility>

#define CHECK(holds) check((holds), #holds, __LINE__)

static void check(bool holds, const char *text, int line) {
    if (!holds) {
        std::printf("line %d: not so: %s\n", line, text);
        std::exit(1);
    }
}

// A kernel that is freed with its owner. It moves, and is not copied.
class Kernel {
public:
    explicit Kernel(const lot_sizes &sizes) {
        must(lot_kernel_new(&sizes, &kernel));
    }

    Kernel(Kernel &&other) noexcept {
        std::swap(kernel, other.kernel);
    }

    Kernel &operator=(Kernel &&other) noexcept {
        std::swap(kernel, other.kernel);
        return *this;
    }

    Kernel(const Kernel &) = delete;
    Kernel &operator=(const Kernel &) = delete;

    ~Kernel() {
        lot_kernel_free(&kernel);
    }

    bool is_empty() const {
        return kernel.at == nullptr;
    }

    lot_reply event(const lot_event &event) {
        lot_reply reply;
        must(lot_kernel_event(&kernel, &event, &reply));
        return reply;
    }

    lot_thread_row thread(std::uint32_t number) {
        lot_thread_row row;
        must(lot_kernel_thread_row(&kernel, number, &row));
        return row;
    }

    lot_ticket_row ticket(std::uint32_t number) {
        lot_ticket_row row;
        must(lot_kernel_ticket_row(&kernel, number, &row));
        return row;
    }

private:
    lot_kernel kernel = LOT_KERNEL_NONE;

    static void must(std::uint32_t status) {
        if (status != LOT_DONE) {
            throw std::runtime_error(lot_status_text(status));
        }
    }
};

// Two threads have 10 and 5 tickets: the number 9 of 15 draws the first.
static Kernel two_threads() {
    Kernel kernel(lot_sizes_small());
    const lot_name base = lot_name_of("base");
    CHECK(kernel.event(lot_make_funded(10, base, lot_name_of("first"), 1)).thread == 1);
    CHECK(kernel.event(lot_make_funded(5, base, lot_name_of("second"), 1)).thread == 2);
    return kernel;
}

// How a host goes on after a trap. There is no default, so the compiler names an outcome that is missing.
enum class Next { Same, Draw, Wake, Explain };

static Next next_after(const lot_reply &reply) {
    switch (static_cast<lot_outcome>(reply.outcome)) {
    case LOT_OUTCOME_REPLIED:
    case LOT_OUTCOME_PASSED:
    case LOT_OUTCOME_SERVED_BY:
    case LOT_OUTCOME_REPLIED_THEN_RECEIVED:
    case LOT_OUTCOME_REPLIED_THEN_WAITS:
        return Next::Wake;
    case LOT_OUTCOME_REFUSED:
        return Next::Explain;
    case LOT_OUTCOME_RECEIVED:
    case LOT_OUTCOME_LOCKED:
    case LOT_OUTCOME_FREED:
    case LOT_OUTCOME_YIELDED:
    case LOT_OUTCOME_SLEPT:
    case LOT_OUTCOME_QUEUED:
    case LOT_OUTCOME_WAITS:
    case LOT_OUTCOME_EXITED:
        break;
    }
    return lot_goes_on(&reply) ? Next::Same : Next::Draw;
}

// A draw and four traps.
static void draws_and_traps() {
    Kernel kernel = two_threads();
    const lot_reply winner = kernel.event(lot_draw(1, lot_wide_of(9)));
    CHECK(winner.kind == LOT_REPLY_WINNER && winner.thread == 1 && winner.number.low == 9 && winner.total.low == 15);
    CHECK(next_after(kernel.event(lot_lock(1, 10, 1))) == Next::Same);
    const lot_reply refused = kernel.event(lot_lock(1, 10, 1));
    CHECK(next_after(refused) == Next::Explain && lot_goes_on(&refused));
    CHECK(static_cast<lot_refusal>(refused.reason) == LOT_TRAP_REFUSAL_ALREADY_OWNER);
    CHECK(std::strcmp(lot_refusal_text(refused.reason), "the thread owns the mutex already") == 0);
    // 11 + 11 + 78 ticks are the quantum of 100: the thread keeps the processor no more, though its mutex is free.
    const lot_reply freed = kernel.event(lot_unlock(1, 77, 1, lot_wide_of(0)));
    CHECK(freed.outcome == LOT_OUTCOME_FREED && freed.ends && next_after(freed) == Next::Draw);
    CHECK(kernel.thread(1).ticks == 100 && kernel.thread(1).status.kind == LOT_STATUS_READY);
    CHECK(kernel.event(lot_draw(1, lot_wide_of(10))).thread == 2);
    CHECK(next_after(kernel.event(lot_call(1, 0, 1, 7))) == Next::Draw);
    CHECK(static_cast<lot_thread_status_kind>(kernel.thread(2).status.kind) == LOT_STATUS_QUEUED);
    std::puts("ok: draws and traps");
}

// Whether lot.hpp has a function of this name for arguments of these types.
#define TAKES(function) \
    struct function { \
        template <typename... Given> \
        static auto with(int) -> decltype(lot::function(std::declval<Given>()...), std::true_type()); \
        template <typename...> static std::false_type with(...); \
    }

namespace takes {
TAKES(fund);
TAKES(lock);
TAKES(preempt);
TAKES(set_ticket);
TAKES(wake);
} // namespace takes

#define COMPILES(function, ...) decltype(takes::function::with<__VA_ARGS__>(0))::value

static_assert(COMPILES(fund, lot::Ticket, lot::Thread) && COMPILES(fund, lot::Ticket, lot::Currency), "as in lot.hpp");
static_assert(COMPILES(fund, lot::Ticket, lot_name) && COMPILES(wake, lot::Thread), "as in lot.hpp");
static_assert(COMPILES(lock, lot::Processor, int, lot::Mutex), "as in lot.hpp");
static_assert(COMPILES(preempt, lot::Processor, int) && COMPILES(set_ticket, lot::Ticket, int), "as in lot.hpp");
static_assert(!COMPILES(fund, lot::Thread, lot::Ticket) && !COMPILES(fund, lot::Ticket, lot::Ticket), "swapped");
static_assert(!COMPILES(fund, int, int) && !COMPILES(fund, lot::Ticket, int), "plain numbers");
static_assert(!COMPILES(lock, lot::Mutex, int, lot::Processor), "swapped");
static_assert(!COMPILES(lock, lot::Processor, int, lot::Port), "a port for a mutex");
static_assert(!COMPILES(preempt, int, lot::Processor) && !COMPILES(set_ticket, int, lot::Ticket), "swapped");
static_assert(!COMPILES(wake, int) && !COMPILES(wake, lot::Processor), "no thread");

static bool is_same(const lot_event &one, const lot_event &other) {
    return std::memcmp(&one, &other, sizeof one) == 0;
}

// The events of lot.hpp are those of lot.h, and each number goes where it belongs.
static void typed_numbers() {
    const lot::Processor processor(1);
    const lot::Ticket ticket(2);
    const lot::Thread thread(3);
    const lot::Currency currency(4);
    const lot_name name = lot_name_of("a");
    CHECK(is_same(lot::fund(ticket, thread), lot_fund_thread(2, 3)));
    CHECK(is_same(lot::fund(ticket, currency), lot_fund_currency(2, 4)));
    CHECK(is_same(lot::fund(ticket, name), lot_fund(2, name)));
    CHECK(is_same(lot::call(processor, 5, lot::Port(6), 7), lot_call(1, 5, 6, 7)));
    CHECK(is_same(lot::unlock(processor, 5, lot::Mutex(8), lot_wide_of(9)), lot_unlock(1, 5, 8, lot_wide_of(9))));
    CHECK(is_same(lot::make_funded(10, lot::base, name, 1), lot_make_funded_in(10, 0, name, 1)));
    CHECK(is_same(lot::reply_with(processor, 5, 7), lot_reply_with(1, 5, 7)));
    CHECK(is_same(lot::kill(thread), lot_kill_numbered(3)) && is_same(lot::kill(name), lot_kill(name)));
    CHECK(lot::Thread(3) == thread && lot::Thread(4) != thread);

    Kernel kernel(lot_sizes_small());
    const lot_reply made = kernel.event(lot::make_funded(10, lot::base, lot_no_name(), 1));
    CHECK(lot::currency_of(kernel.event(lot::make_currency(name))) == lot::Currency(1));
    CHECK(lot::thread_of(kernel.event(lot::draw(processor, lot_wide_of(9)))) == lot::thread_of(made));
    CHECK(kernel.event(lot::kill(lot::thread_of(made))).kind == LOT_REPLY_DONE);
    CHECK(kernel.event(lot::unfund(lot::ticket_of(made))).kind == LOT_REPLY_DONE);
    CHECK(kernel.event(lot::remove_thread(lot::thread_of(made))).kind == LOT_REPLY_DONE);
    std::puts("ok: typed numbers");
}

// A thread that runs is killed, and another one is drawn in its place.
static void kills() {
    Kernel kernel = two_threads();
    CHECK(kernel.event(lot_draw(1, lot_wide_of(9))).thread == 1);
    CHECK(kernel.event(lot_kill(lot_name_of("first"))).kind == LOT_REPLY_DONE);
    CHECK(kernel.thread(1).status.kind == LOT_STATUS_DEAD && kernel.thread(1).ticks == 0);
    CHECK(kernel.event(lot_draw(1, lot_wide_of(9))).thread == 2);
    CHECK(kernel.event(lot_kill_numbered(1)).reason == LOT_REFUSAL_DEAD_THREAD);
    std::puts("ok: kills");
}

// What a ticket funds, by its number where it has no name.
static std::uint32_t funded_thread(const lot_ticket_row &row) {
    switch (static_cast<lot_target_kind>(row.target_kind)) {
    case LOT_TARGET_THREAD:
        return row.target_number;
    case LOT_TARGET_NONE:
    case LOT_TARGET_CURRENCY:
        break;
    }
    return 0;
}

// Two threads without a name, in a kernel with plain names.
static void names() {
    lot_sizes sizes = lot_sizes_small();
    sizes.plain_names = 1;
    Kernel kernel(sizes);
    const lot_name base = lot_name_of("base");
    CHECK(kernel.event(lot_make_funded(10, base, lot_no_name(), 1)).thread == 1);
    CHECK(kernel.event(lot_make_funded(5, base, lot_no_name(), 1)).thread == 2);
    CHECK(kernel.event(lot_make_currency(lot_name_of("Web/1"))).currency == 1);
    CHECK(kernel.event(lot_make_ticket(7, base)).ticket == 3 && funded_thread(kernel.ticket(3)) == 0);
    CHECK(kernel.event(lot_fund(3, lot_name_of("Web/1"))).kind == LOT_REPLY_DONE);
    CHECK(funded_thread(kernel.ticket(2)) == 2 && funded_thread(kernel.ticket(3)) == 0);
    CHECK(kernel.ticket(3).target_number == 1 && kernel.thread(2).name.length == 0);
    CHECK(kernel.event(lot_draw(1, lot_wide_of(14))).thread == 2);
    std::puts("ok: names");
}

static void refused_events() {
    Kernel kernel = two_threads();
    const lot_reply reply = kernel.event(lot_fund(1, lot_name_of("second")));
    CHECK(static_cast<lot_reply_kind>(reply.kind) == LOT_REPLY_REFUSED);
    CHECK(std::strcmp(lot_refusal_text(reply.reason), "the ticket funds something") == 0);
    // Any number may be cast to an enum, which then has no name.
    CHECK(std::strcmp(lot_refusal_text(4000000000u), "unknown refusal") == 0);
    std::puts("ok: refused events");
}

// A status is an exception, and a kernel is freed by its last owner alone.
static void ownership() {
    Kernel first = two_threads(), second = std::move(first);
    CHECK(first.is_empty() && !second.is_empty());
    first = std::move(second);
    CHECK(!first.is_empty() && first.thread(1).value == 10);
    lot_sizes sizes = lot_sizes_small();
    sizes.quantum = 1001;
    bool is_thrown = false;
    try {
        Kernel none(sizes);
    } catch (const std::runtime_error &error) {
        is_thrown = std::strcmp(error.what(), "a size is out of its bounds") == 0;
    }
    CHECK(is_thrown);
    lot_kernel none = LOT_KERNEL_NONE;
    none = lot_kernel_none();
    CHECK(none.at == nullptr && lot_kernel_free(&none) == LOT_DONE && lot_version() == LOT_VERSION);
    CHECK(lot_kernel_free(nullptr) == LOT_DONE);
    std::puts("ok: ownership");
}

int main() {
    draws_and_traps();
    typed_numbers();
    kills();
    names();
    refused_events();
    ownership();
    return 0;
}
