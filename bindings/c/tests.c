// Tests of the archive through its header: rows of worked kernels, and whatever bytes a caller can hand in.
//
// It prints a line for each test, and ends with status 1 at the first thing that is not as it should be.

#include "lot.h"
#include "test_kinds.h"
#include "test_random.h"

#include <stdio.h>
#include <stdlib.h>
#include <string.h>

// Whether two structs are the same up to their last field. The bytes behind that say nothing.
#define SAME(a, b, last) (memcmp(&(a), &(b), (size_t)((char *)&(a).last - (char *)&(a)) + sizeof (a).last) == 0)

#define CHECK(holds) check((holds), #holds, __LINE__)

static void check(bool holds, const char *text, int line) {
    if (!holds) {
        printf("line %d: not so: %s\n", line, text);
        exit(1);
    }
}

static const lot_sizes SMALL = {.tickets = 64, .currencies = 16, .threads = 16, .ports = 2, .mutexes = 2,
                                .processors = 2, .scripts = 1, .quantum = 100, .unit = 1};

static lot_kernel made(const lot_sizes *sizes) {
    lot_kernel kernel = LOT_KERNEL_NONE;
    CHECK(lot_kernel_new(sizes, &kernel) == LOT_DONE);
    CHECK(kernel.at != NULL);
    return kernel;
}

static lot_reply answer(lot_kernel *kernel, lot_event event) {
    lot_reply reply;
    CHECK(lot_kernel_event(kernel, &event, &reply) == LOT_DONE);
    return reply;
}

static lot_reply funded(lot_kernel *kernel, uint64_t amount, const char *currency, const char *name) {
    return answer(kernel, lot_make_funded(amount, lot_name_of(currency), lot_name_of(name), 1));
}

static lot_reply drawn(lot_kernel *kernel, uint32_t processor, uint64_t number) {
    return answer(kernel, lot_draw(processor, lot_wide_of(number)));
}

static bool is_refused(lot_reply reply, uint32_t reason) {
    return lot_refused(&reply) && reply.kind == LOT_REPLY_REFUSED && reply.reason == reason;
}

static bool has_won(lot_reply reply, uint32_t thread, uint64_t number, uint64_t total) {
    return reply.kind == LOT_REPLY_WINNER && reply.thread == thread && reply.has_draw && reply.number.low == number &&
           reply.number.high == 0 && reply.total.low == total && reply.total.high == 0 && !lot_refused(&reply);
}

static bool came_to(lot_reply reply, uint32_t thread, uint32_t outcome, uint32_t other) {
    return reply.kind == LOT_REPLY_TRAPPED && reply.thread == thread && reply.outcome == outcome &&
           reply.other == other && lot_refused(&reply) == (outcome == LOT_OUTCOME_REFUSED);
}

static bool has_expired(lot_reply reply, uint32_t thread, uint32_t ticks) {
    return reply.kind == LOT_REPLY_EXPIRED && reply.thread == thread && reply.ticks == ticks;
}

static lot_thread_row row_of(lot_kernel *kernel, uint32_t thread) {
    lot_thread_row row;
    CHECK(lot_kernel_thread_row(kernel, thread, &row) == LOT_DONE);
    return row;
}

static bool is_name(lot_name name, const char *text) {
    lot_name meant = lot_name_of(text);
    return memcmp(&name, &meant, sizeof name) == 0;
}

// The status of an event, whose reply doesn't matter.
static uint32_t status_of(lot_kernel *kernel, lot_event event) {
    lot_reply reply;
    return lot_kernel_event(kernel, &event, &reply);
}

// Whether the ticket funds what has this number.
static bool funds(lot_kernel *kernel, uint32_t ticket, uint32_t kind, uint32_t number) {
    lot_ticket_row row;
    CHECK(lot_kernel_ticket_row(kernel, ticket, &row) == LOT_DONE && row.has_target == (kind != LOT_TARGET_NONE));
    return row.target_kind == kind && row.target_number == number;
}

// ---- rows of worked kernels

// Five threads with 10, 2, 5, 1 and 2 tickets: who holds which number.
static void list_lottery(void) {
    static const uint64_t amounts[5] = {10, 2, 5, 1, 2};
    static const char *const names[5] = {"a", "b", "c", "d", "e"};
    static const uint64_t draws[11][3] = {{15, 3, 15}, {9, 1, 9},   {10, 2, 10}, {11, 2, 11}, {12, 3, 12}, {16, 3, 16},
                                          {17, 4, 17}, {18, 5, 18}, {19, 5, 19}, {35, 3, 15}, {36090892629924, 1, 4}};
    lot_kernel kernel = made(&SMALL);
    for (uint32_t i = 0; i < 5; i++) {
        lot_reply reply = funded(&kernel, amounts[i], "base", names[i]);
        CHECK(reply.kind == LOT_REPLY_FUNDED && reply.ticket == i + 1 && reply.thread == i + 1);
    }
    for (size_t i = 0; i < 11; i++) {
        CHECK(has_won(drawn(&kernel, 1, draws[i][0]), (uint32_t)draws[i][1], draws[i][2], 20));
        CHECK(is_refused(drawn(&kernel, 1, 0), LOT_REFUSAL_BUSY));
        lot_reply reply = answer(&kernel, lot_expire(1));
        CHECK(reply.kind == LOT_REPLY_EXPIRED && reply.thread == draws[i][1] && reply.ticks == 100);
    }
    CHECK(lot_kernel_free(&kernel) == LOT_DONE);
    puts("ok: list lottery");
}

// alice and bob share base, and hand on what they have to their tasks; task1 has no thread (4.4).
static void make_graph(lot_kernel *kernel) {
    static const char *const currencies[5] = {"alice", "bob", "task1", "task2", "task3"};
    static const struct {
        uint64_t amount;
        const char *currency, *target;
    } tickets[5] = {{1000, "base", "alice"},
                    {2000, "base", "bob"},
                    {100, "alice", "task1"},
                    {200, "alice", "task2"},
                    {100, "bob", "task3"}};
    for (uint32_t i = 0; i < 5; i++) {
        lot_reply reply = answer(kernel, lot_make_currency(lot_name_of(currencies[i])));
        CHECK(reply.kind == LOT_REPLY_CURRENCY && reply.currency == i + 1);
    }
    for (uint32_t i = 0; i < 5; i++) {
        lot_reply reply = answer(kernel, lot_make_ticket(tickets[i].amount, lot_name_of(tickets[i].currency)));
        CHECK(reply.kind == LOT_REPLY_TICKET && reply.ticket == i + 1);
        CHECK(answer(kernel, lot_fund(i + 1, lot_name_of(tickets[i].target))).kind == LOT_REPLY_DONE);
    }
    CHECK(funded(kernel, 200, "task2", "thread2").thread == 1);
    CHECK(funded(kernel, 300, "task2", "thread3").thread == 2);
    CHECK(funded(kernel, 100, "task3", "thread4").thread == 3);
}

static void currency_graph(void) {
    static const uint64_t values[3] = {400, 600, 2000};
    lot_kernel kernel = made(&SMALL);
    make_graph(&kernel);
    for (uint32_t i = 0; i < 3; i++) {
        lot_thread_row row;
        CHECK(lot_kernel_thread_row(&kernel, i + 1, &row) == LOT_DONE);
        CHECK(row.value == values[i] && row.weight.low == values[i] && row.status.kind == LOT_STATUS_READY);
    }
    lot_currency_row currency;
    CHECK(lot_kernel_currency_row(&kernel, 4, &currency) == LOT_DONE);
    CHECK(is_name(currency.name, "task2") && currency.backing == 1 && currency.issued == 2);
    CHECK(currency.active_amount == 500 && currency.value == 1000);
    lot_ticket_row ticket;
    CHECK(lot_kernel_ticket_row(&kernel, 3, &ticket) == LOT_DONE);
    CHECK(is_name(ticket.issuer, "alice") && ticket.has_target && is_name(ticket.target, "task1"));
    CHECK(!ticket.is_active && ticket.value == 0 && ticket.amount == 100);
    CHECK(funds(&kernel, 3, LOT_TARGET_CURRENCY, 3) && funds(&kernel, 8, LOT_TARGET_THREAD, 3));
    CHECK(answer(&kernel, lot_unfund(3)).kind == LOT_REPLY_DONE && funds(&kernel, 3, LOT_TARGET_NONE, 0));
    CHECK(lot_kernel_ticket_row(&kernel, 3, &ticket) == LOT_DONE && !ticket.has_target && ticket.target.length == 0);
    CHECK(answer(&kernel, lot_remove_ticket(3)).kind == LOT_REPLY_DONE);
    CHECK(lot_kernel_ticket_row(&kernel, 3, &ticket) == LOT_NOT_THERE);
    uint32_t count = 0;
    CHECK(lot_kernel_ticket_count(&kernel, &count) == LOT_DONE && count == 8);
    CHECK(lot_kernel_currency_count(&kernel, &count) == LOT_DONE && count == 6);
    CHECK(lot_kernel_free(&kernel) == LOT_DONE);
    puts("ok: currency graph");
}

static bool is_worth(lot_kernel *kernel, uint32_t thread, uint64_t value) {
    lot_thread_row row;
    return lot_kernel_thread_row(kernel, thread, &row) == LOT_DONE && row.value == value;
}

// Inflation and deflation (3.2): 100 of base back alice, whose threads a and b have 10 of it each; c has 100 of base.
static void inflation(void) {
    const lot_event expiry = lot_expire(1);
    lot_kernel kernel = made(&SMALL);
    CHECK(answer(&kernel, lot_make_currency(lot_name_of("alice"))).currency == 1);
    CHECK(answer(&kernel, lot_make_ticket(100, lot_name_of("base"))).ticket == 1);
    CHECK(answer(&kernel, lot_fund(1, lot_name_of("alice"))).kind == LOT_REPLY_DONE);
    CHECK(funded(&kernel, 10, "alice", "a").ticket == 2 && funded(&kernel, 10, "alice", "b").ticket == 3);
    CHECK(funded(&kernel, 100, "base", "c").ticket == 4);
    CHECK(has_won(drawn(&kernel, 1, 50), 2, 50, 200) && answer(&kernel, expiry).thread == 2);
    // More of alice's tickets for a: it takes a share of b's, and none of c's.
    CHECK(answer(&kernel, lot_set_ticket(2, 30)).kind == LOT_REPLY_DONE);
    lot_ticket_row ticket;
    CHECK(lot_kernel_ticket_row(&kernel, 2, &ticket) == LOT_DONE && ticket.amount == 30 && ticket.value == 75);
    CHECK(ticket.is_active);
    CHECK(is_name(ticket.issuer, "alice") && ticket.has_target && is_name(ticket.target, "a"));
    CHECK(is_worth(&kernel, 1, 75) && is_worth(&kernel, 2, 25) && is_worth(&kernel, 3, 100));
    CHECK(has_won(drawn(&kernel, 1, 50), 1, 50, 200) && answer(&kernel, expiry).thread == 1);
    // Fewer of base's for alice: 20 for a and b, whose shares of them stay 3 to 1.
    CHECK(answer(&kernel, lot_set_ticket(1, 20)).kind == LOT_REPLY_DONE);
    CHECK(has_won(drawn(&kernel, 1, 15), 2, 15, 120) && answer(&kernel, expiry).thread == 2);
    CHECK(is_worth(&kernel, 1, 15) && is_worth(&kernel, 2, 5) && is_worth(&kernel, 3, 100));
    CHECK(answer(&kernel, lot_set_ticket(1, UINT32_MAX)).kind == LOT_REPLY_DONE);
    CHECK(has_won(drawn(&kernel, 1, 0), 1, 0, UINT64_C(4294967394)));
    CHECK(lot_kernel_free(&kernel) == LOT_DONE);
    puts("ok: inflation");
}

static bool is_gone(lot_kernel *kernel, uint32_t thread) {
    lot_thread_row row;
    uint32_t script;
    return lot_kernel_thread_row(kernel, thread, &row) == LOT_NOT_THERE &&
           lot_kernel_script_of(kernel, thread, &script) == LOT_NOT_THERE;
}

// A thread is removed once it is dead and no ticket funds it. Its name is free then, and its number isn't.
static void removal(void) {
    const lot_name a = lot_name_of("a");
    const lot_event removal = lot_remove_thread(a);
    lot_kernel kernel = made(&SMALL);
    CHECK(is_refused(answer(&kernel, removal), LOT_REFUSAL_NO_THREAD));
    CHECK(is_refused(answer(&kernel, lot_remove_thread(lot_name_of("base"))), LOT_REFUSAL_NO_THREAD));
    CHECK(funded(&kernel, 10, "base", "a").ticket == 1 && funded(&kernel, 5, "base", "b").thread == 2);
    CHECK(is_refused(answer(&kernel, removal), LOT_REFUSAL_ALIVE));
    CHECK(has_won(drawn(&kernel, 1, 9), 1, 9, 15) && is_refused(answer(&kernel, removal), LOT_REFUSAL_ALIVE));
    CHECK(came_to(answer(&kernel, lot_exit(1, 4)), 1, LOT_OUTCOME_EXITED, 0));
    CHECK(is_refused(answer(&kernel, removal), LOT_REFUSAL_IN_USE));
    CHECK(answer(&kernel, lot_unfund(1)).kind == LOT_REPLY_DONE);
    CHECK(answer(&kernel, removal).kind == LOT_REPLY_DONE && is_gone(&kernel, 1) && is_worth(&kernel, 2, 5));
    CHECK(is_refused(answer(&kernel, removal), LOT_REFUSAL_NO_THREAD));
    CHECK(is_refused(answer(&kernel, lot_fund(1, a)), LOT_REFUSAL_NO_TARGET));
    CHECK(answer(&kernel, lot_make_thread(a, 1)).thread == 3);
    CHECK(answer(&kernel, lot_fund(1, a)).kind == LOT_REPLY_DONE && is_worth(&kernel, 3, 10) && is_gone(&kernel, 1));
    CHECK(has_won(drawn(&kernel, 1, 5), 3, 5, 15));
    CHECK(lot_kernel_free(&kernel) == LOT_DONE);
    puts("ok: removal");
}

// Commands by number, where 1 is both a currency and a thread. 100 of base back the currency, whose 40 are a's and b's.
static void numbered(void) {
    lot_kernel kernel = made(&SMALL);
    CHECK(answer(&kernel, lot_make_currency(lot_name_of("alice"))).currency == 1);
    CHECK(answer(&kernel, lot_make_ticket_in(100, 0)).ticket == 1);
    CHECK(answer(&kernel, lot_fund_currency(1, 1)).kind == LOT_REPLY_DONE);
    lot_reply reply = answer(&kernel, lot_make_funded_in(10, 1, lot_name_of("a"), 1));
    CHECK(reply.kind == LOT_REPLY_FUNDED && reply.ticket == 2 && reply.thread == 1);
    CHECK(answer(&kernel, lot_make_thread(lot_name_of("b"), 1)).thread == 2);
    CHECK(answer(&kernel, lot_make_ticket_in(30, 1)).ticket == 3);
    CHECK(answer(&kernel, lot_fund_thread(3, 2)).kind == LOT_REPLY_DONE);
    CHECK(is_worth(&kernel, 1, 25) && is_worth(&kernel, 2, 75) && has_won(drawn(&kernel, 1, 24), 1, 24, 100));
    CHECK(came_to(answer(&kernel, lot_exit(1, 0)), 1, LOT_OUTCOME_EXITED, 0));
    CHECK(answer(&kernel, lot_unfund(2)).kind == LOT_REPLY_DONE);
    CHECK(answer(&kernel, lot_remove_thread_numbered(1)).kind == LOT_REPLY_DONE && is_gone(&kernel, 1));
    CHECK(is_refused(answer(&kernel, lot_remove_thread_numbered(1)), LOT_REFUSAL_NO_THREAD));
    CHECK(is_refused(answer(&kernel, lot_fund_thread(2, 1)), LOT_REFUSAL_NO_TARGET));
    CHECK(answer(&kernel, lot_remove_ticket(2)).kind == LOT_REPLY_DONE);
    CHECK(answer(&kernel, lot_unfund(3)).kind == LOT_REPLY_DONE);
    CHECK(answer(&kernel, lot_remove_ticket(3)).kind == LOT_REPLY_DONE);
    CHECK(answer(&kernel, lot_unfund(1)).kind == LOT_REPLY_DONE);
    CHECK(answer(&kernel, lot_remove_currency_numbered(1)).kind == LOT_REPLY_DONE);
    CHECK(is_refused(answer(&kernel, lot_fund_currency(1, 1)), LOT_REFUSAL_NO_TARGET));
    CHECK(is_refused(answer(&kernel, lot_make_ticket_in(1, 1)), LOT_REFUSAL_NO_CURRENCY));
    CHECK(lot_kernel_free(&kernel) == LOT_DONE);
    puts("ok: numbered");
}

// Sizes for two tickets, currencies and threads at once. The next one gets the number that was given up last.
static void given_again(void) {
    const lot_sizes sizes = {2, 2, 2, 0, 0, 1, 1, 100, 1, 1, 0, 0};
    const lot_name c = lot_name_of("c"), d = lot_name_of("d");
    lot_kernel kernel = made(&sizes);
    CHECK(funded(&kernel, 10, "base", "a").thread == 1 && funded(&kernel, 5, "base", "b").thread == 2);
    CHECK(has_won(drawn(&kernel, 1, 9), 1, 9, 15) && has_expired(answer(&kernel, lot_expire(1)), 1, 100));
    // A thread that was killed keeps its number until it is removed.
    CHECK(answer(&kernel, lot_kill_numbered(1)).kind == LOT_REPLY_DONE);
    CHECK(is_refused(answer(&kernel, lot_make_thread(c, 1)), LOT_REFUSAL_FULL));
    CHECK(answer(&kernel, lot_unfund(1)).kind == LOT_REPLY_DONE);
    CHECK(answer(&kernel, lot_remove_thread_numbered(1)).kind == LOT_REPLY_DONE && is_gone(&kernel, 1));
    CHECK(answer(&kernel, lot_make_thread(c, 1)).thread == 1);
    CHECK(answer(&kernel, lot_fund_thread(1, 1)).kind == LOT_REPLY_DONE && is_worth(&kernel, 1, 10));
    lot_thread_row row = row_of(&kernel, 1);
    CHECK(row.status.kind == LOT_STATUS_READY && row.quanta == 0 && row.ticks == 0 && is_name(row.name, "c"));
    CHECK(is_refused(answer(&kernel, lot_make_ticket_in(1, 0)), LOT_REFUSAL_FULL));
    CHECK(answer(&kernel, lot_unfund(2)).kind == LOT_REPLY_DONE);
    CHECK(answer(&kernel, lot_unfund(1)).kind == LOT_REPLY_DONE);
    CHECK(answer(&kernel, lot_remove_ticket(1)).kind == LOT_REPLY_DONE);
    CHECK(answer(&kernel, lot_remove_ticket(2)).kind == LOT_REPLY_DONE);
    CHECK(answer(&kernel, lot_make_ticket_in(7, 0)).ticket == 2);
    CHECK(answer(&kernel, lot_make_ticket_in(8, 0)).ticket == 1);
    CHECK(answer(&kernel, lot_make_currency(lot_name_of("x"))).currency == 1);
    CHECK(answer(&kernel, lot_make_currency(lot_name_of("y"))).currency == 2);
    CHECK(is_refused(answer(&kernel, lot_make_currency(d)), LOT_REFUSAL_FULL));
    CHECK(answer(&kernel, lot_remove_currency_numbered(1)).kind == LOT_REPLY_DONE);
    CHECK(answer(&kernel, lot_make_currency(d)).currency == 1);
    CHECK(lot_kernel_free(&kernel) == LOT_DONE);
    puts("ok: given again");
}

// Three threads without a name. Their numbers refer to them, and a name of length 0 refers to nothing.
static void no_names(void) {
    const lot_name none = lot_no_name();
    lot_kernel kernel = made(&SMALL);
    CHECK(answer(&kernel, lot_make_thread(none, 1)).thread == 1 && funded(&kernel, 10, "base", "").thread == 2);
    lot_reply reply = answer(&kernel, lot_make_funded_in(5, 0, none, 1));
    CHECK(reply.kind == LOT_REPLY_FUNDED && reply.ticket == 2 && reply.thread == 3);
    CHECK(answer(&kernel, lot_make_ticket_in(20, 0)).ticket == 3 && funds(&kernel, 3, LOT_TARGET_NONE, 0));
    const lot_event naming[8] = {lot_make_ticket(1, none), lot_make_currency(none), lot_remove_currency(none),
                                 lot_fund(3, none), lot_remove_thread(none), lot_kill(none),
                                 lot_make_funded(1, none, none, 1), lot_make_funded(1, none, lot_name_of("t"), 1)};
    for (size_t i = 0; i < 8; i++) {
        CHECK(status_of(&kernel, naming[i]) == LOT_BAD_NAME);
    }
    CHECK(answer(&kernel, lot_fund_thread(3, 1)).kind == LOT_REPLY_DONE);
    for (uint32_t i = 1; i <= 3; i++) {
        lot_ticket_row ticket;
        CHECK(is_name(row_of(&kernel, i).name, "") && funds(&kernel, i, LOT_TARGET_THREAD, i == 3 ? 1 : i + 1));
        CHECK(lot_kernel_ticket_row(&kernel, i, &ticket) == LOT_DONE && is_name(ticket.target, ""));
    }
    CHECK(is_worth(&kernel, 1, 20) && is_worth(&kernel, 2, 10) && is_worth(&kernel, 3, 5));
    CHECK(has_won(drawn(&kernel, 1, 19), 1, 19, 35) && has_won(drawn(&kernel, 2, 9), 2, 9, 15));
    CHECK(came_to(answer(&kernel, lot_exit(1, 0)), 1, LOT_OUTCOME_EXITED, 0));
    CHECK(is_refused(answer(&kernel, lot_remove_thread_numbered(1)), LOT_REFUSAL_IN_USE));
    CHECK(answer(&kernel, lot_unfund(3)).kind == LOT_REPLY_DONE);
    CHECK(answer(&kernel, lot_remove_thread_numbered(1)).kind == LOT_REPLY_DONE && is_gone(&kernel, 1));
    CHECK(answer(&kernel, lot_kill_numbered(2)).kind == LOT_REPLY_DONE);
    CHECK(row_of(&kernel, 2).status.kind == LOT_STATUS_DEAD && is_name(row_of(&kernel, 2).name, ""));
    CHECK(answer(&kernel, lot_make_thread(none, 1)).thread == 4 && has_won(drawn(&kernel, 1, 4), 3, 4, 5));
    CHECK(lot_kernel_free(&kernel) == LOT_DONE);
    puts("ok: no names");
}

// Room for two threads: the first one stays, and a thousand without a name come and go.
static void no_names_given_again(void) {
    const lot_sizes sizes = {2, 1, 2, 0, 0, 1, 1, 100, 1, 1, 0, 0};
    lot_kernel kernel = made(&sizes);
    CHECK(funded(&kernel, 3, "base", "stays").thread == 1);
    for (int i = 0; i < 1000; i++) {
        lot_reply reply = answer(&kernel, lot_make_funded_in(7, 0, lot_no_name(), 1));
        CHECK(reply.kind == LOT_REPLY_FUNDED && reply.ticket == 2 && reply.thread == 2);
        CHECK(funds(&kernel, 1, LOT_TARGET_THREAD, 1) && funds(&kernel, 2, LOT_TARGET_THREAD, 2));
        CHECK(has_won(drawn(&kernel, 1, 9), 2, 9, 10) && row_of(&kernel, 2).quanta == 1);
        CHECK(answer(&kernel, lot_kill_numbered(2)).kind == LOT_REPLY_DONE);
        CHECK(answer(&kernel, lot_unfund(2)).kind == LOT_REPLY_DONE);
        CHECK(answer(&kernel, lot_remove_ticket(2)).kind == LOT_REPLY_DONE);
        CHECK(answer(&kernel, lot_remove_thread_numbered(2)).kind == LOT_REPLY_DONE && is_gone(&kernel, 2));
    }
    CHECK(lot_kernel_free(&kernel) == LOT_DONE);
    puts("ok: no names given again");
}

static bool is_good_byte(uint32_t byte, bool is_first) {
    bool is_letter = byte >= 'a' && byte <= 'z';
    return is_letter || (!is_first && ((byte >= '0' && byte <= '9') || byte == '_' || byte == '-'));
}

// Each byte as a name, and as its second byte: which of two kernels takes it, and which of the calls for names.
static void bytes_of_names(lot_kernel *good, lot_kernel *plain) {
    for (uint32_t byte = 0; byte < 256; byte++) {
        const lot_name names[2] = {{1, {(uint8_t)byte}}, {2, {'a', (uint8_t)byte}}};
        for (size_t i = 0; i < 2; i++) {
            uint32_t as_good = is_good_byte(byte, i == 0) ? LOT_DONE : LOT_BAD_NAME;
            uint32_t as_plain = byte >= 33 && byte <= 126 ? LOT_DONE : LOT_BAD_NAME;
            lot_name name = lot_name_of("kept");
            CHECK(status_of(good, lot_fund(99, names[i])) == as_good);
            CHECK(lot_name_new(names[i].bytes, names[i].length, &name) == as_good);
            CHECK(memcmp(&name, &names[i], sizeof name) == 0 || (as_good != LOT_DONE && is_name(name, "kept")));
            name = lot_name_of("kept");
            CHECK(status_of(plain, lot_fund(99, names[i])) == as_plain);
            CHECK(lot_plain_name_new(names[i].bytes, names[i].length, &name) == as_plain);
            CHECK(memcmp(&name, &names[i], sizeof name) == 0 || (as_plain != LOT_DONE && is_name(name, "kept")));
        }
    }
}

// With plain names the names of currencies and threads have any printable bytes, and all else is as with others.
static void plain_names(void) {
    lot_sizes sizes = SMALL;
    sizes.plain_names = 7;
    lot_kernel good = made(&SMALL), plain = made(&sizes);
    bytes_of_names(&good, &plain);
    const lot_name job = lot_name_of("Job#1"), bang = lot_name_of("!"), long_name = lot_name_of("~sixteen/bytes.~");
    CHECK(answer(&plain, lot_make_currency(bang)).currency == 1);
    CHECK(answer(&plain, lot_make_ticket(8, bang)).ticket == 1);
    CHECK(answer(&plain, lot_make_thread(job, 1)).thread == 1 && is_name(row_of(&plain, 1).name, "Job#1"));
    CHECK(is_refused(answer(&plain, lot_make_currency(job)), LOT_REFUSAL_NAME_TAKEN));
    CHECK(is_refused(answer(&plain, lot_make_thread(bang, 1)), LOT_REFUSAL_NAME_TAKEN));
    CHECK(is_refused(answer(&plain, lot_kill(lot_name_of("job#1"))), LOT_REFUSAL_NO_THREAD));
    CHECK(answer(&plain, lot_fund(1, job)).kind == LOT_REPLY_DONE && funds(&plain, 1, LOT_TARGET_THREAD, 1));
    CHECK(funded(&plain, 4, "base", "~sixteen/bytes.~").thread == 2 && funded(&plain, 2, "!", "").thread == 3);
    CHECK(has_won(drawn(&plain, 1, 3), 2, 3, 4) && answer(&plain, lot_kill(long_name)).kind == LOT_REPLY_DONE);
    CHECK(status_of(&plain, lot_make_currency(lot_no_name())) == LOT_BAD_NAME);
    CHECK(status_of(&plain, lot_make_thread(lot_name_of("a b"), 1)) == LOT_BAD_NAME);
    CHECK(status_of(&plain, lot_make_thread(lot_name_of("~seventeen/bytes~"), 1)) == LOT_LONG_NAME);
    CHECK(status_of(&good, lot_kill(job)) == LOT_BAD_NAME);
    CHECK(status_of(&good, lot_make_ticket(8, bang)) == LOT_BAD_NAME);
    CHECK(lot_kernel_limits(&plain, &sizes) == LOT_DONE && sizes.plain_names == 1 && sizes.reuse == 0);
    CHECK(lot_kernel_free(&plain) == LOT_DONE && lot_kernel_free(&good) == LOT_DONE);
    puts("ok: plain names");
}

// A dead thread with a client, or with a mutex, stays.
static void removal_in_use(void) {
    lot_kernel kernel = made(&SMALL);
    CHECK(funded(&kernel, 1, "base", "owner").thread == 1);
    CHECK(has_won(drawn(&kernel, 1, 0), 1, 0, 1));
    CHECK(came_to(answer(&kernel, lot_lock(1, 0, 1)), 1, LOT_OUTCOME_LOCKED, 0));
    CHECK(came_to(answer(&kernel, lot_exit(1, 0)), 1, LOT_OUTCOME_EXITED, 0));
    CHECK(funded(&kernel, 1, "base", "client").thread == 2);
    CHECK(has_won(drawn(&kernel, 1, 0), 2, 0, 1));
    CHECK(came_to(answer(&kernel, lot_call(1, 99, 1, 7)), 2, LOT_OUTCOME_QUEUED, 0));
    CHECK(funded(&kernel, 1, "base", "server").thread == 3);
    CHECK(has_won(drawn(&kernel, 1, 0), 3, 0, 1));
    CHECK(came_to(answer(&kernel, lot_receive(1, 0, 1)), 3, LOT_OUTCOME_RECEIVED, 2));
    CHECK(came_to(answer(&kernel, lot_exit(1, 0)), 3, LOT_OUTCOME_EXITED, 0));
    CHECK(answer(&kernel, lot_unfund(1)).kind == LOT_REPLY_DONE);
    CHECK(answer(&kernel, lot_unfund(3)).kind == LOT_REPLY_DONE);
    CHECK(is_refused(answer(&kernel, lot_remove_thread(lot_name_of("owner"))), LOT_REFUSAL_IN_USE));
    CHECK(is_refused(answer(&kernel, lot_remove_thread(lot_name_of("server"))), LOT_REFUSAL_IN_USE));
    CHECK(is_refused(answer(&kernel, lot_remove_thread(lot_name_of("client"))), LOT_REFUSAL_ALIVE));
    CHECK(lot_kernel_free(&kernel) == LOT_DONE);
    puts("ok: removal in use");
}

// A thread that runs and is killed leaves its processor idle, and is charged nothing more. The other processor's thread
// runs on.
static void killed_runner(void) {
    const lot_name a = lot_name_of("a");
    lot_kernel kernel = made(&SMALL);
    lot_runner runner;
    funded(&kernel, 400, "base", "a");
    funded(&kernel, 100, "base", "b");
    CHECK(has_won(drawn(&kernel, 1, 0), 1, 0, 500) && has_won(drawn(&kernel, 2, 99), 2, 99, 100));
    CHECK(came_to(answer(&kernel, lot_lock(1, 29, 1)), 1, LOT_OUTCOME_LOCKED, 0));
    CHECK(answer(&kernel, lot_kill(a)).kind == LOT_REPLY_DONE);
    CHECK(lot_kernel_runner(&kernel, 1, &runner) == LOT_NOT_THERE);
    CHECK(is_refused(answer(&kernel, lot_expire(1)), LOT_REFUSAL_NOT_RUNNING));
    lot_thread_row row = row_of(&kernel, 1);
    CHECK(row.status.kind == LOT_STATUS_DEAD && row.status.processor == 0 && row.status.used == 0);
    CHECK(row.value == 0 && row.weight.low == 0 && row.quanta == 1 && row.ticks == 30 && is_name(row.name, "a"));
    CHECK(lot_kernel_runner(&kernel, 2, &runner) == LOT_DONE && runner.thread == 2 && runner.used == 0);
    CHECK(drawn(&kernel, 1, 0).kind == LOT_REPLY_IDLE);
    CHECK(has_expired(answer(&kernel, lot_expire(2)), 2, 100) && has_won(drawn(&kernel, 1, 99), 2, 99, 100));
    // To charge it for the 50 ticks that it ran, it is preempted first.
    CHECK(has_expired(answer(&kernel, lot_preempt(1, 50)), 2, 50));
    CHECK(answer(&kernel, lot_kill_numbered(2)).kind == LOT_REPLY_DONE && row_of(&kernel, 2).ticks == 150);
    // The killed thread owns its mutex no more. So it can be removed once no ticket funds it.
    CHECK(is_refused(answer(&kernel, lot_remove_thread(a)), LOT_REFUSAL_IN_USE));
    CHECK(answer(&kernel, lot_unfund(1)).kind == LOT_REPLY_DONE);
    CHECK(answer(&kernel, lot_remove_thread(a)).kind == LOT_REPLY_DONE && is_gone(&kernel, 1));
    CHECK(lot_kernel_free(&kernel) == LOT_DONE);
    puts("ok: killed runner");
}

// Two clients of a server, which runs on the first processor: the one that it took first called with 2 base, the other
// with 3.
static lot_kernel served(void) {
    lot_kernel kernel = made(&SMALL);
    funded(&kernel, 1, "base", "server");
    funded(&kernel, 2, "base", "first");
    funded(&kernel, 3, "base", "second");
    CHECK(has_won(drawn(&kernel, 1, 0), 1, 0, 6));
    CHECK(came_to(answer(&kernel, lot_receive(1, 0, 1)), 1, LOT_OUTCOME_WAITS, 0));
    CHECK(has_won(drawn(&kernel, 1, 0), 2, 0, 5));
    CHECK(came_to(answer(&kernel, lot_call(1, 0, 1, 7)), 2, LOT_OUTCOME_SERVED_BY, 1));
    // The server weighs 3 times 100 / 1.
    CHECK(has_won(drawn(&kernel, 1, 300), 3, 300, 303));
    CHECK(came_to(answer(&kernel, lot_call(1, 0, 1, 8)), 3, LOT_OUTCOME_QUEUED, 0));
    CHECK(has_won(drawn(&kernel, 1, 0), 1, 0, 300));
    CHECK(came_to(answer(&kernel, lot_receive(1, 0, 1)), 1, LOT_OUTCOME_RECEIVED, 3));
    CHECK(row_of(&kernel, 2).status.kind == LOT_STATUS_SERVED && row_of(&kernel, 3).status.other == 1);
    CHECK(is_worth(&kernel, 1, 6));
    return kernel;
}

// The clients of a killed server are ready, with nothing delivered and with their compensation (4.6).
static void killed_server(void) {
    lot_kernel kernel = served();
    CHECK(answer(&kernel, lot_kill(lot_name_of("server"))).kind == LOT_REPLY_DONE);
    for (uint32_t client = 2; client <= 3; client++) {
        lot_thread_row row = row_of(&kernel, client);
        CHECK(row.status.kind == LOT_STATUS_READY && row.status.other == 0);
        CHECK(row.value == client && row.weight.low == client * 100);
    }
    lot_reply reply = drawn(&kernel, 1, 199);
    CHECK(has_won(reply, 2, 199, 500) && !reply.has_sent && reply.sent == 0);
    reply = drawn(&kernel, 2, 0);
    CHECK(has_won(reply, 3, 0, 300) && !reply.has_sent && reply.sent == 0);
    CHECK(answer(&kernel, lot_unfund(1)).kind == LOT_REPLY_DONE);
    CHECK(answer(&kernel, lot_remove_thread_numbered(1)).kind == LOT_REPLY_DONE);
    CHECK(lot_kernel_free(&kernel) == LOT_DONE);
    puts("ok: killed server");
}

// A killed client gets no reply: its server replies to the client that it took next (4.6).
static void killed_client(void) {
    lot_kernel kernel = served();
    CHECK(answer(&kernel, lot_kill_numbered(2)).kind == LOT_REPLY_DONE && is_worth(&kernel, 1, 4));
    CHECK(came_to(answer(&kernel, lot_reply_with(1, 0, 9)), 1, LOT_OUTCOME_REPLIED, 3));
    lot_reply reply = answer(&kernel, lot_reply_with(1, 0, 9));
    CHECK(came_to(reply, 1, LOT_OUTCOME_REFUSED, 0) && reply.reason == LOT_TRAP_REFUSAL_NOTHING_TO_REPLY);
    reply = drawn(&kernel, 2, 0);
    CHECK(has_won(reply, 3, 0, 300) && reply.has_sent && reply.sent == 9);
    CHECK(lot_kernel_free(&kernel) == LOT_DONE);
    puts("ok: killed client");
}

// A killed thread waits at no port: as a receiver it takes no call, and as a caller its call is withdrawn (4.6).
static void killed_at_a_port(void) {
    lot_kernel kernel = made(&SMALL);
    funded(&kernel, 1, "base", "receiver");
    funded(&kernel, 2, "base", "caller");
    CHECK(has_won(drawn(&kernel, 1, 0), 1, 0, 3));
    CHECK(came_to(answer(&kernel, lot_receive(1, 0, 1)), 1, LOT_OUTCOME_WAITS, 0));
    CHECK(answer(&kernel, lot_kill_numbered(1)).kind == LOT_REPLY_DONE);
    CHECK(has_won(drawn(&kernel, 1, 0), 2, 0, 2));
    CHECK(came_to(answer(&kernel, lot_call(1, 0, 1, 7)), 2, LOT_OUTCOME_QUEUED, 0));
    CHECK(answer(&kernel, lot_kill(lot_name_of("caller"))).kind == LOT_REPLY_DONE);
    funded(&kernel, 4, "base", "other");
    CHECK(has_won(drawn(&kernel, 1, 3), 3, 3, 4));
    CHECK(came_to(answer(&kernel, lot_receive(1, 0, 1)), 3, LOT_OUTCOME_WAITS, 0));
    CHECK(lot_kernel_free(&kernel) == LOT_DONE);
    puts("ok: killed at a port");
}

// The first thread owns a mutex and runs. The second has waited for it longer than the third, and lends less.
static lot_kernel locked(void) {
    lot_kernel kernel = made(&SMALL);
    funded(&kernel, 10, "base", "a");
    funded(&kernel, 20, "base", "b");
    funded(&kernel, 30, "base", "c");
    CHECK(has_won(drawn(&kernel, 1, 0), 1, 0, 60));
    CHECK(came_to(answer(&kernel, lot_lock(1, 0, 1)), 1, LOT_OUTCOME_LOCKED, 0));
    CHECK(has_expired(answer(&kernel, lot_expire(1)), 1, 99));
    CHECK(has_won(drawn(&kernel, 1, 10), 2, 10, 60));
    CHECK(came_to(answer(&kernel, lot_lock(1, 0, 1)), 2, LOT_OUTCOME_WAITS, 0));
    CHECK(has_won(drawn(&kernel, 1, 30), 3, 30, 60));
    CHECK(came_to(answer(&kernel, lot_lock(1, 0, 1)), 3, LOT_OUTCOME_WAITS, 0));
    CHECK(has_won(drawn(&kernel, 1, 59), 1, 59, 60));
    return kernel;
}

// A killed owner's mutex passes to the thread that has waited longest, without a lottery. The others wait on, and lend
// to it (6.1).
static void killed_owner(void) {
    lot_kernel kernel = locked();
    lot_reply reply = answer(&kernel, lot_kill(lot_name_of("a")));
    CHECK(reply.kind == LOT_REPLY_DONE && !reply.has_draw && reply.other == 0);
    lot_thread_row row = row_of(&kernel, 2);
    CHECK(row.status.kind == LOT_STATUS_READY && row.value == 50 && row.weight.low == 5000);
    row = row_of(&kernel, 3);
    CHECK(row.status.kind == LOT_STATUS_WAITING && row.status.other == 1);
    CHECK(has_won(drawn(&kernel, 1, 4999), 2, 4999, 5000));
    reply = answer(&kernel, lot_unlock(1, 0, 1, lot_wide_of(0)));
    CHECK(came_to(reply, 2, LOT_OUTCOME_PASSED, 3) && reply.has_draw && reply.total.low == 30);
    CHECK(lot_kernel_free(&kernel) == LOT_DONE);
    puts("ok: killed owner");
}

// A killed waiter lends no more, and gets no mutex (6.1).
static void killed_waiter(void) {
    lot_kernel kernel = locked();
    CHECK(is_worth(&kernel, 1, 60) && answer(&kernel, lot_kill_numbered(2)).kind == LOT_REPLY_DONE);
    CHECK(is_worth(&kernel, 1, 40));
    lot_reply reply = answer(&kernel, lot_unlock(1, 0, 1, lot_wide_of(0)));
    CHECK(came_to(reply, 1, LOT_OUTCOME_PASSED, 3) && reply.has_draw && reply.total.low == 30);
    CHECK(lot_kernel_free(&kernel) == LOT_DONE);
    puts("ok: killed waiter");
}

// A thread that sleeps can be killed, and isn't woken then. A thread that has ended can't be killed.
static void killed_sleeper(void) {
    const lot_name a = lot_name_of("a");
    lot_kernel kernel = made(&SMALL);
    CHECK(is_refused(answer(&kernel, lot_kill(a)), LOT_REFUSAL_NO_THREAD));
    funded(&kernel, 400, "base", "a");
    CHECK(has_won(drawn(&kernel, 1, 0), 1, 0, 400));
    CHECK(came_to(answer(&kernel, lot_sleep(1, 0)), 1, LOT_OUTCOME_SLEPT, 0));
    CHECK(answer(&kernel, lot_kill(a)).kind == LOT_REPLY_DONE);
    CHECK(is_refused(answer(&kernel, lot_wake(1)), LOT_REFUSAL_NOT_ASLEEP));
    CHECK(drawn(&kernel, 1, 0).kind == LOT_REPLY_IDLE);
    CHECK(is_refused(answer(&kernel, lot_kill(a)), LOT_REFUSAL_DEAD_THREAD));
    CHECK(is_refused(answer(&kernel, lot_kill_numbered(1)), LOT_REFUSAL_DEAD_THREAD));
    CHECK(is_refused(answer(&kernel, lot_fund(1, a)), LOT_REFUSAL_DEAD_THREAD));
    CHECK(answer(&kernel, lot_unfund(1)).kind == LOT_REPLY_DONE);
    CHECK(answer(&kernel, lot_remove_thread(a)).kind == LOT_REPLY_DONE);
    CHECK(is_refused(answer(&kernel, lot_kill(a)), LOT_REFUSAL_NO_THREAD));
    CHECK(is_refused(answer(&kernel, lot_kill_numbered(1)), LOT_REFUSAL_NO_THREAD));
    CHECK(lot_kernel_free(&kernel) == LOT_DONE);
    puts("ok: killed sleeper");
}

// A thread that sleeps competes in no draw. It used 20 of 100 ticks, so it is woken with 5 times its weight (4.4, 4.5).
static void sleeping(void) {
    lot_kernel kernel = made(&SMALL);
    funded(&kernel, 400, "base", "a");
    funded(&kernel, 100, "base", "b");
    CHECK(has_won(drawn(&kernel, 1, 0), 1, 0, 500));
    lot_reply reply = answer(&kernel, lot_sleep(1, 19));
    CHECK(came_to(reply, 1, LOT_OUTCOME_SLEPT, 0) && reply.ticks == 20 && !reply.ends && !lot_goes_on(&reply));
    lot_thread_row row = row_of(&kernel, 1);
    CHECK(row.status.kind == LOT_STATUS_ASLEEP && row.status.processor == 0 && row.status.other == 0);
    CHECK(row.value == 0 && row.weight.low == 0 && row.ticks == 20 && row.quanta == 1);
    CHECK(has_won(drawn(&kernel, 1, 99), 2, 99, 100) && has_expired(answer(&kernel, lot_expire(1)), 2, 100));
    CHECK(is_refused(answer(&kernel, lot_remove_thread(lot_name_of("a"))), LOT_REFUSAL_ALIVE));
    CHECK(answer(&kernel, lot_wake(1)).kind == LOT_REPLY_DONE);
    row = row_of(&kernel, 1);
    CHECK(row.status.kind == LOT_STATUS_READY && row.value == 400 && row.weight.low == 2000 && row.ticks == 20);
    CHECK(has_won(drawn(&kernel, 1, 1999), 1, 1999, 2100));
    // One that has used its whole quantum gets no compensation.
    CHECK(came_to(answer(&kernel, lot_sleep(1, 99)), 1, LOT_OUTCOME_SLEPT, 0));
    CHECK(answer(&kernel, lot_wake(1)).kind == LOT_REPLY_DONE && row_of(&kernel, 1).weight.low == 400);
    CHECK(lot_kernel_free(&kernel) == LOT_DONE);
    puts("ok: sleeping");
}

// The tickets of a thread that sleeps are inactive: the currency's other thread has all of its 200 (4.4).
static void sleepers_tickets(void) {
    lot_kernel kernel = made(&SMALL);
    CHECK(answer(&kernel, lot_make_currency(lot_name_of("g"))).currency == 1);
    CHECK(answer(&kernel, lot_make_ticket(200, lot_name_of("base"))).ticket == 1);
    CHECK(answer(&kernel, lot_fund(1, lot_name_of("g"))).kind == LOT_REPLY_DONE);
    CHECK(funded(&kernel, 2, "g", "a").ticket == 2 && funded(&kernel, 1, "g", "b").ticket == 3);
    CHECK(has_won(drawn(&kernel, 1, 0), 1, 0, 199));
    CHECK(came_to(answer(&kernel, lot_sleep(1, 0)), 1, LOT_OUTCOME_SLEPT, 0));
    CHECK(is_worth(&kernel, 1, 0) && is_worth(&kernel, 2, 200));
    lot_ticket_row ticket;
    CHECK(lot_kernel_ticket_row(&kernel, 2, &ticket) == LOT_DONE && !ticket.is_active && ticket.value == 0);
    CHECK(ticket.has_target && is_name(ticket.target, "a"));
    CHECK(answer(&kernel, lot_wake(1)).kind == LOT_REPLY_DONE);
    CHECK(is_worth(&kernel, 1, 133) && is_worth(&kernel, 2, 66));
    CHECK(lot_kernel_free(&kernel) == LOT_DONE);
    puts("ok: sleepers' tickets");
}

// Why a thread can't go to sleep or be woken. A thread that was removed has no number any more.
static void sleep_refusals(void) {
    const lot_event wake = lot_wake(1);
    lot_kernel kernel = made(&SMALL);
    CHECK(is_refused(answer(&kernel, wake), LOT_REFUSAL_NO_THREAD));
    funded(&kernel, 400, "base", "a");
    CHECK(is_refused(answer(&kernel, wake), LOT_REFUSAL_NOT_ASLEEP));
    CHECK(is_refused(answer(&kernel, lot_sleep(0, 0)), LOT_REFUSAL_BAD_PROCESSOR));
    CHECK(is_refused(answer(&kernel, lot_sleep(3, 0)), LOT_REFUSAL_BAD_PROCESSOR));
    CHECK(is_refused(answer(&kernel, lot_sleep(1, 0)), LOT_REFUSAL_NOT_RUNNING));
    CHECK(has_won(drawn(&kernel, 1, 0), 1, 0, 400));
    CHECK(is_refused(answer(&kernel, lot_sleep(1, 100)), LOT_REFUSAL_BAD_TICKS));
    CHECK(is_refused(answer(&kernel, lot_sleep(1, UINT32_MAX)), LOT_REFUSAL_BAD_TICKS));
    CHECK(is_refused(answer(&kernel, wake), LOT_REFUSAL_NOT_ASLEEP));
    CHECK(is_refused(answer(&kernel, lot_wake(0)), LOT_REFUSAL_NO_THREAD));
    CHECK(is_refused(answer(&kernel, lot_wake(2)), LOT_REFUSAL_NO_THREAD));
    CHECK(is_refused(answer(&kernel, lot_wake(UINT32_MAX)), LOT_REFUSAL_NO_THREAD));
    CHECK(came_to(answer(&kernel, lot_exit(1, 0)), 1, LOT_OUTCOME_EXITED, 0));
    CHECK(is_refused(answer(&kernel, wake), LOT_REFUSAL_NOT_ASLEEP));
    CHECK(answer(&kernel, lot_unfund(1)).kind == LOT_REPLY_DONE);
    CHECK(answer(&kernel, lot_remove_thread(lot_name_of("a"))).kind == LOT_REPLY_DONE);
    CHECK(is_refused(answer(&kernel, wake), LOT_REFUSAL_NO_THREAD));
    CHECK(lot_kernel_free(&kernel) == LOT_DONE);
    puts("ok: sleep refusals");
}

// A thread whose processor is taken from it is charged what it has run, and isn't compensated (4.2, 4.5).
static void preemption(void) {
    lot_kernel kernel = made(&SMALL);
    funded(&kernel, 400, "base", "a");
    CHECK(is_refused(answer(&kernel, lot_preempt(0, 0)), LOT_REFUSAL_BAD_PROCESSOR));
    CHECK(is_refused(answer(&kernel, lot_preempt(3, 0)), LOT_REFUSAL_BAD_PROCESSOR));
    CHECK(is_refused(answer(&kernel, lot_preempt(1, 0)), LOT_REFUSAL_NOT_RUNNING));
    CHECK(has_won(drawn(&kernel, 1, 0), 1, 0, 400));
    CHECK(has_expired(answer(&kernel, lot_preempt(1, 30)), 1, 30));
    CHECK(row_of(&kernel, 1).status.kind == LOT_STATUS_READY);
    CHECK(has_won(drawn(&kernel, 1, 399), 1, 399, 400));
    CHECK(came_to(answer(&kernel, lot_lock(1, 19, 1)), 1, LOT_OUTCOME_LOCKED, 0));
    lot_reply reply = answer(&kernel, lot_preempt(1, 81));
    CHECK(is_refused(reply, LOT_REFUSAL_BAD_TICKS) && lot_goes_on(&reply));
    CHECK(is_refused(answer(&kernel, lot_preempt(1, UINT32_MAX)), LOT_REFUSAL_BAD_TICKS));
    lot_runner runner;
    CHECK(lot_kernel_runner(&kernel, 1, &runner) == LOT_DONE && runner.thread == 1 && runner.used == 20);
    reply = answer(&kernel, lot_preempt(1, 80));
    CHECK(has_expired(reply, 1, 80) && !lot_goes_on(&reply));
    CHECK(lot_kernel_runner(&kernel, 1, &runner) == LOT_NOT_THERE);
    CHECK(has_won(drawn(&kernel, 1, 399), 1, 399, 400) && has_expired(answer(&kernel, lot_preempt(1, 0)), 1, 0));
    CHECK(row_of(&kernel, 1).ticks == 130 && row_of(&kernel, 1).quanta == 3);
    CHECK(lot_kernel_free(&kernel) == LOT_DONE);
    puts("ok: preemption");
}

// A thread whose quantum ended late weighs less until it next wins, but at least 1 if it is worth something (3.4).
static void overruns(void) {
    lot_kernel kernel = made(&SMALL);
    funded(&kernel, 400, "base", "a");
    CHECK(has_won(drawn(&kernel, 1, 0), 1, 0, 400));
    // It is charged 100 ticks and 100 more, and weighs half.
    CHECK(has_expired(answer(&kernel, lot_overrun(1, 100)), 1, 200) && is_worth(&kernel, 1, 400));
    CHECK(row_of(&kernel, 1).status.kind == LOT_STATUS_READY && row_of(&kernel, 1).weight.low == 200);
    CHECK(has_won(drawn(&kernel, 1, 199), 1, 199, 200) && has_expired(answer(&kernel, lot_expire(1)), 1, 100));
    CHECK(has_won(drawn(&kernel, 1, 399), 1, 399, 400) && has_expired(answer(&kernel, lot_overrun(1, 0)), 1, 100));
    CHECK(has_won(drawn(&kernel, 1, 399), 1, 399, 400));
    // 80 ticks of its quantum were left: it is charged these and 50, and weighs 400 * 100 / 150.
    CHECK(came_to(answer(&kernel, lot_lock(1, 19, 1)), 1, LOT_OUTCOME_LOCKED, 0));
    CHECK(has_expired(answer(&kernel, lot_overrun(1, 50)), 1, 130) && row_of(&kernel, 1).weight.low == 266);
    // It keeps that while it has no ticket.
    CHECK(answer(&kernel, lot_unfund(1)).kind == LOT_REPLY_DONE && drawn(&kernel, 1, 0).kind == LOT_REPLY_IDLE);
    CHECK(answer(&kernel, lot_fund(1, lot_name_of("a"))).kind == LOT_REPLY_DONE);
    CHECK(has_won(drawn(&kernel, 1, 265), 1, 265, 266));
    // 100 and 4294967195 are 4294967295, the most that there may be; 40000 / 4294967295 is 0.
    CHECK(has_expired(answer(&kernel, lot_overrun(1, 4294967195)), 1, 4294967295));
    CHECK(row_of(&kernel, 1).weight.low == 1 && row_of(&kernel, 1).ticks == UINT64_C(4294967845));
    CHECK(has_won(drawn(&kernel, 1, 7), 1, 0, 1));
    CHECK(lot_kernel_free(&kernel) == LOT_DONE);
    puts("ok: overruns");
}

static void overrun_refusals(void) {
    lot_kernel kernel = made(&SMALL);
    funded(&kernel, 400, "base", "a");
    CHECK(is_refused(answer(&kernel, lot_overrun(0, 0)), LOT_REFUSAL_BAD_PROCESSOR));
    CHECK(is_refused(answer(&kernel, lot_overrun(3, UINT32_MAX)), LOT_REFUSAL_BAD_PROCESSOR));
    CHECK(is_refused(answer(&kernel, lot_overrun(1, UINT32_MAX)), LOT_REFUSAL_NOT_RUNNING));
    CHECK(has_won(drawn(&kernel, 1, 0), 1, 0, 400));
    CHECK(is_refused(answer(&kernel, lot_overrun(1, UINT32_MAX)), LOT_REFUSAL_BAD_TICKS));
    lot_reply reply = answer(&kernel, lot_overrun(1, 4294967196));
    CHECK(is_refused(reply, LOT_REFUSAL_BAD_TICKS) && lot_goes_on(&reply));
    CHECK(has_expired(answer(&kernel, lot_overrun(1, 20)), 1, 120));
    CHECK(lot_kernel_free(&kernel) == LOT_DONE);
    puts("ok: overrun refusals");
}

// A server replies and receives in one trap: it takes a call that is queued, or waits (4.6).
static void servings(void) {
    lot_kernel kernel = made(&SMALL);
    funded(&kernel, 10, "base", "v");
    funded(&kernel, 20, "base", "c");
    funded(&kernel, 30, "base", "d");
    CHECK(has_won(drawn(&kernel, 1, 0), 1, 0, 60));
    CHECK(answer(&kernel, lot_serve(1, 0, 1, 7)).reason == LOT_TRAP_REFUSAL_NOTHING_TO_REPLY);
    CHECK(came_to(answer(&kernel, lot_receive(1, 0, 1)), 1, LOT_OUTCOME_WAITS, 0));
    CHECK(has_won(drawn(&kernel, 1, 0), 2, 0, 50));
    CHECK(came_to(answer(&kernel, lot_call(1, 0, 1, 5)), 2, LOT_OUTCOME_SERVED_BY, 1));
    CHECK(has_won(drawn(&kernel, 2, 0), 1, 0, 1530));
    CHECK(has_won(drawn(&kernel, 1, 0), 3, 0, 30));
    CHECK(came_to(answer(&kernel, lot_call(1, 0, 1, 6)), 3, LOT_OUTCOME_QUEUED, 0));
    lot_reply reply = answer(&kernel, lot_serve(2, 0, 1, 8));
    CHECK(came_to(reply, 1, LOT_OUTCOME_REPLIED_THEN_RECEIVED, 3) && reply.replied_to == 2);
    CHECK(reply.has_sent && reply.sent == 6);
    reply = answer(&kernel, lot_serve(2, 0, 1, 9));
    CHECK(came_to(reply, 1, LOT_OUTCOME_REPLIED_THEN_WAITS, 0) && reply.replied_to == 3 && !reply.has_sent);
    lot_thread_row row;
    CHECK(lot_kernel_thread_row(&kernel, 1, &row) == LOT_DONE && row.status.kind == LOT_STATUS_RECEIVING);
    CHECK(lot_kernel_free(&kernel) == LOT_DONE);
    puts("ok: servings");
}

// A client calls a server that waits for it, lends it what it is worth, and is answered (4.6); then a mutex.
static void call_and_reply(void) {
    lot_kernel kernel = made(&SMALL);
    funded(&kernel, 5, "base", "s");
    funded(&kernel, 5, "base", "c");
    CHECK(has_won(drawn(&kernel, 1, 4), 1, 4, 10));
    CHECK(came_to(answer(&kernel, lot_receive(1, 0, 1)), 1, LOT_OUTCOME_WAITS, 0));
    CHECK(has_won(drawn(&kernel, 1, 4), 2, 4, 5));
    CHECK(came_to(answer(&kernel, lot_call(1, 1, 1, 41)), 2, LOT_OUTCOME_SERVED_BY, 1));
    lot_reply reply = drawn(&kernel, 1, 5);
    CHECK(reply.kind == LOT_REPLY_WINNER && reply.thread == 1 && reply.total.low == 1000);
    CHECK(reply.has_sent && reply.sent == 41);
    lot_runner runner;
    CHECK(lot_kernel_runner(&kernel, 1, &runner) == LOT_DONE && runner.thread == 1 && runner.used == 0);
    CHECK(lot_kernel_runner(&kernel, 2, &runner) == LOT_NOT_THERE);
    reply = answer(&kernel, lot_reply_with(1, 1, 42));
    CHECK(came_to(reply, 1, LOT_OUTCOME_REPLIED, 2) && reply.ticks == 2 && !reply.ends);
    CHECK(came_to(answer(&kernel, lot_lock(1, 0, 1)), 1, LOT_OUTCOME_LOCKED, 0));
    reply = answer(&kernel, lot_lock(1, 0, 1));
    CHECK(came_to(reply, 1, LOT_OUTCOME_REFUSED, 0) && reply.reason == LOT_TRAP_REFUSAL_ALREADY_OWNER);
    CHECK(came_to(answer(&kernel, lot_unlock(1, 0, 1, lot_wide_of(0))), 1, LOT_OUTCOME_FREED, 0));
    CHECK(came_to(answer(&kernel, lot_yield(1, 0)), 1, LOT_OUTCOME_YIELDED, 0));
    uint32_t script = 0;
    CHECK(lot_kernel_script_of(&kernel, 2, &script) == LOT_DONE && script == 1);
    CHECK(lot_kernel_script_of(&kernel, 3, &script) == LOT_NOT_THERE);
    lot_meter meter;
    CHECK(lot_kernel_meter(&kernel, &meter) == LOT_DONE && meter.tree_visits > 0);
    lot_sizes sizes;
    CHECK(lot_kernel_limits(&kernel, &sizes) == LOT_DONE && memcmp(&sizes, &SMALL, sizeof sizes) == 0);
    CHECK(lot_kernel_free(&kernel) == LOT_DONE);
    puts("ok: call and reply");
}

// Each reason for which a command is refused.
static void refused_commands(lot_kernel *kernel) {
    CHECK(answer(kernel, lot_make_currency(lot_name_of("x"))).currency == 1);
    CHECK(answer(kernel, lot_make_currency(lot_name_of("y"))).currency == 2);
    CHECK(answer(kernel, lot_make_ticket(1, lot_name_of("x"))).ticket == 1);
    CHECK(answer(kernel, lot_make_ticket(1, lot_name_of("y"))).ticket == 2);
    CHECK(answer(kernel, lot_fund(1, lot_name_of("y"))).kind == LOT_REPLY_DONE);
    CHECK(funded(kernel, 7, "base", "t").thread == 1);
    const lot_name base = lot_name_of("base"), x = lot_name_of("x"), nothing = lot_name_of("nothing");
    const uint64_t above = UINT64_C(1) << 32;
    const struct {
        lot_event event;
        uint32_t reason;
    } rows[] = {
        {lot_make_currency(x), LOT_REFUSAL_NAME_TAKEN},
        {lot_make_ticket(1, nothing), LOT_REFUSAL_NO_CURRENCY},
        {lot_remove_ticket(99), LOT_REFUSAL_NO_TICKET},
        {lot_fund(2, nothing), LOT_REFUSAL_NO_TARGET},
        {lot_make_ticket(0, base), LOT_REFUSAL_BAD_AMOUNT},
        {lot_make_ticket(above, base), LOT_REFUSAL_BAD_AMOUNT},
        {lot_remove_currency(x), LOT_REFUSAL_IN_USE},
        {lot_remove_ticket(1), LOT_REFUSAL_FUNDING},
        {lot_unfund(2), LOT_REFUSAL_NOT_FUNDING},
        {lot_set_ticket(1, 0), LOT_REFUSAL_BAD_AMOUNT},
        {lot_set_ticket(99, above), LOT_REFUSAL_BAD_AMOUNT},
        {lot_set_ticket(99, 1), LOT_REFUSAL_NO_TICKET},
        {lot_set_ticket(above + 1, 1), LOT_REFUSAL_NO_TICKET},
        {lot_fund(2, x), LOT_REFUSAL_CYCLE},
        {lot_remove_currency(base), LOT_REFUSAL_BASE_FIXED},
        {lot_make_currency(lot_name_of("z")), LOT_REFUSAL_FULL},
        {lot_make_thread(lot_name_of("u"), 2), LOT_REFUSAL_NO_SCRIPT},
        {lot_remove_thread(nothing), LOT_REFUSAL_NO_THREAD},
        {lot_remove_thread(x), LOT_REFUSAL_NO_THREAD},
        {lot_remove_thread(lot_name_of("t")), LOT_REFUSAL_ALIVE},
        {lot_kill(nothing), LOT_REFUSAL_NO_THREAD},
        {lot_kill(x), LOT_REFUSAL_NO_THREAD},
    };
    for (size_t i = 0; i < sizeof rows / sizeof rows[0]; i++) {
        CHECK(is_refused(answer(kernel, rows[i].event), rows[i].reason));
    }
}

// The same by number, in the same kernel: currencies 0 to 2, tickets 1 to 3 and thread 1 are there.
static void refused_by_number(lot_kernel *kernel) {
    const lot_name x = lot_name_of("x"), u = lot_name_of("u");
    const struct {
        lot_event event;
        uint32_t reason;
    } rows[] = {
        {lot_make_ticket_in(0, 3), LOT_REFUSAL_BAD_AMOUNT},
        {lot_make_ticket_in(1, 3), LOT_REFUSAL_NO_CURRENCY},
        {lot_make_ticket_in(1, UINT32_MAX), LOT_REFUSAL_NO_CURRENCY},
        {lot_remove_currency_numbered(3), LOT_REFUSAL_NO_CURRENCY},
        {lot_remove_currency_numbered(0), LOT_REFUSAL_BASE_FIXED},
        {lot_remove_currency_numbered(1), LOT_REFUSAL_IN_USE},
        {lot_fund_currency(99, 3), LOT_REFUSAL_NO_TICKET},
        {lot_fund_currency(2, 3), LOT_REFUSAL_NO_TARGET},
        {lot_fund_currency(2, 0), LOT_REFUSAL_BASE_FIXED},
        {lot_fund_currency(1, 2), LOT_REFUSAL_FUNDING},
        {lot_fund_currency(2, 1), LOT_REFUSAL_CYCLE},
        {lot_fund_thread(99, 2), LOT_REFUSAL_NO_TICKET},
        {lot_fund_thread(2, 0), LOT_REFUSAL_NO_TARGET},
        {lot_fund_thread(2, 2), LOT_REFUSAL_NO_TARGET},
        {lot_fund_thread(1, 1), LOT_REFUSAL_FUNDING},
        {lot_remove_thread_numbered(0), LOT_REFUSAL_NO_THREAD},
        {lot_remove_thread_numbered(2), LOT_REFUSAL_NO_THREAD},
        {lot_remove_thread_numbered(1), LOT_REFUSAL_ALIVE},
        {lot_kill_numbered(0), LOT_REFUSAL_NO_THREAD},
        {lot_kill_numbered(2), LOT_REFUSAL_NO_THREAD},
        {lot_kill_numbered(UINT32_MAX), LOT_REFUSAL_NO_THREAD},
        {lot_make_funded_in(0, 3, x, 2), LOT_REFUSAL_BAD_AMOUNT},
        {lot_make_funded_in(1, 3, x, 2), LOT_REFUSAL_NO_CURRENCY},
        {lot_make_funded_in(1, 0, x, 2), LOT_REFUSAL_NAME_TAKEN},
        {lot_make_funded_in(1, 0, u, 2), LOT_REFUSAL_NO_SCRIPT},
    };
    for (size_t i = 0; i < sizeof rows / sizeof rows[0]; i++) {
        CHECK(is_refused(answer(kernel, rows[i].event), rows[i].reason));
    }
}

// Each reason for which a draw, an expiry or a trap is refused, and what listings are answered.
static void refusals(void) {
    lot_sizes sizes = SMALL;
    sizes.currencies = 2;
    lot_kernel kernel = made(&sizes);
    refused_commands(&kernel);
    refused_by_number(&kernel);
    CHECK(is_refused(drawn(&kernel, 3, 0), LOT_REFUSAL_BAD_PROCESSOR));
    CHECK(is_refused(answer(&kernel, lot_expire(1)), LOT_REFUSAL_NOT_RUNNING));
    CHECK(has_won(drawn(&kernel, 1, 0), 1, 0, 7) && is_refused(drawn(&kernel, 1, 0), LOT_REFUSAL_BUSY));
    CHECK(drawn(&kernel, 2, 0).kind == LOT_REPLY_IDLE);
    CHECK(is_refused(answer(&kernel, lot_exit(1, 100)), LOT_REFUSAL_BAD_TICKS));
    CHECK(came_to(answer(&kernel, lot_exit(1, 99)), 1, LOT_OUTCOME_EXITED, 0));
    CHECK(is_refused(answer(&kernel, lot_fund(2, lot_name_of("t"))), LOT_REFUSAL_DEAD_THREAD));
    CHECK(is_refused(answer(&kernel, lot_fund_thread(2, 1)), LOT_REFUSAL_DEAD_THREAD));
    CHECK(is_refused(answer(&kernel, lot_kill(lot_name_of("t"))), LOT_REFUSAL_DEAD_THREAD));
    CHECK(is_refused(answer(&kernel, lot_kill_numbered(1)), LOT_REFUSAL_DEAD_THREAD));
    CHECK(is_refused(answer(&kernel, lot_remove_thread_numbered(1)), LOT_REFUSAL_IN_USE));
    CHECK(is_refused(answer(&kernel, lot_remove_thread(lot_name_of("t"))), LOT_REFUSAL_IN_USE));
    static const uint32_t lists[3][2] = {{LOT_LIST_TICKETS, LOT_REPLY_LIST_TICKETS},
                                         {LOT_LIST_CURRENCIES, LOT_REPLY_LIST_CURRENCIES},
                                         {LOT_LIST_THREADS, LOT_REPLY_LIST_THREADS}};
    for (size_t i = 0; i < 3; i++) {
        CHECK(answer(&kernel, lot_event_of(lists[i][0])).kind == lists[i][1]);
    }
    CHECK(lot_kernel_free(&kernel) == LOT_DONE);
    puts("ok: refusals");
}

static bool is_trap_refused(lot_reply reply, uint32_t reason) {
    return reply.kind == LOT_REPLY_TRAPPED && reply.outcome == LOT_OUTCOME_REFUSED && reply.reason == reason;
}

// Each reason for which a trap is refused, and a mutex that is passed on by a lottery.
static void trap_refusals(void) {
    lot_kernel kernel = made(&SMALL);
    funded(&kernel, 1, "base", "a");
    funded(&kernel, 1, "base", "b");
    CHECK(drawn(&kernel, 1, 0).thread == 1);
    CHECK(is_trap_refused(answer(&kernel, lot_call(1, 0, 9, 0)), LOT_TRAP_REFUSAL_NO_PORT));
    CHECK(is_trap_refused(answer(&kernel, lot_reply_with(1, 0, 0)), LOT_TRAP_REFUSAL_NOTHING_TO_REPLY));
    CHECK(is_trap_refused(answer(&kernel, lot_lock(1, 0, 9)), LOT_TRAP_REFUSAL_NO_MUTEX));
    CHECK(is_trap_refused(answer(&kernel, lot_unlock(1, 0, 1, lot_wide_of(0))), LOT_TRAP_REFUSAL_NOT_OWNER));
    CHECK(came_to(answer(&kernel, lot_lock(1, 0, 1)), 1, LOT_OUTCOME_LOCKED, 0));
    CHECK(is_trap_refused(answer(&kernel, lot_lock(1, 0, 1)), LOT_TRAP_REFUSAL_ALREADY_OWNER));
    CHECK(answer(&kernel, lot_expire(1)).thread == 1);
    CHECK(drawn(&kernel, 1, 1).thread == 2);
    CHECK(came_to(answer(&kernel, lot_lock(1, 0, 2)), 2, LOT_OUTCOME_LOCKED, 0));
    CHECK(came_to(answer(&kernel, lot_lock(1, 0, 1)), 2, LOT_OUTCOME_WAITS, 0));
    lot_thread_row row;
    CHECK(lot_kernel_thread_row(&kernel, 2, &row) == LOT_DONE);
    CHECK(row.status.kind == LOT_STATUS_WAITING && row.status.other == 1);
    CHECK(drawn(&kernel, 1, 0).thread == 1);
    CHECK(is_trap_refused(answer(&kernel, lot_lock(1, 0, 2)), LOT_TRAP_REFUSAL_LOCK_CYCLE));
    lot_reply reply = answer(&kernel, lot_unlock(1, 0, 1, lot_wide_of(0)));
    CHECK(came_to(reply, 1, LOT_OUTCOME_PASSED, 2) && reply.has_draw && reply.number.low == 0 && reply.total.low == 1);
    CHECK(lot_kernel_free(&kernel) == LOT_DONE);
    puts("ok: trap refusals");
}

// Holds a lottery with a number of 64 bits.
static uint32_t held(const lot_wide *weights, size_t count, uint64_t low, lot_drawn *won) {
    lot_wide number = lot_wide_of(low);
    return lot_winner(weights, count, &number, won);
}

// The lottery alone: the list lottery, weights, and the check that Park and Miller give for their generator.
static void lottery_alone(void) {
    const lot_wide weights[5] = {lot_wide_of(10), lot_wide_of(2), lot_wide_of(5), lot_wide_of(1), lot_wide_of(2)};
    static const uint64_t draws[5][3] = {{9, 0, 9}, {10, 1, 10}, {15, 2, 15}, {17, 3, 17}, {35, 2, 15}};
    lot_drawn won;
    for (size_t i = 0; i < 5; i++) {
        CHECK(held(weights, 5, draws[i][0], &won) == LOT_DONE);
        CHECK(won.place == draws[i][1] && won.number.low == draws[i][2] && won.total.low == 20);
    }
    const lot_wide zeros[2] = {lot_wide_of(0), lot_wide_of(0)};
    const lot_wide large[2] = {{.low = 0, .high = UINT64_C(1) << 63}, {.low = 0, .high = UINT64_C(1) << 63}};
    const lot_wide largest[1] = {{.low = UINT64_MAX, .high = UINT64_MAX}};
    lot_drawn before = won;
    CHECK(held(zeros, 2, 7, &won) == LOT_NO_WINNER && held(weights, 0, 7, &won) == LOT_NO_WINNER);
    CHECK(held(large, 2, 7, &won) == LOT_TOO_LARGE && memcmp(&won, &before, sizeof won) == 0);
    CHECK(held(largest, 1, 7, &won) == LOT_DONE && won.place == 0 && won.number.low == 7);
    CHECK(won.total.high == UINT64_MAX);
    // 2 ^ 128 - 1 modulo 20 is 15.
    CHECK(lot_winner(weights, 5, &largest[0], &won) == LOT_DONE && won.place == 2 && won.number.low == 15);
    static const uint64_t weighed[10][3] = {{400, 0, 400},     {400, 20, 2000}, {7, 3, 233},   {400, 99, 404},
                                            {400, 1, 40000},   {400, 200, 200}, {400, 150, 266}, {1, 1000, 1},
                                            {0, UINT32_MAX, 0}, {400, 100, 400}};
    for (size_t i = 0; i < 10; i++) {
        lot_wide weight;
        lot_weight(weighed[i][0], (uint32_t)weighed[i][1], 100, &weight);
        CHECK(weight.low == weighed[i][2] && weight.high == 0);
    }
    lot_generator generator = {0};
    uint32_t value = 0;
    uint64_t number = 0;
    CHECK(lot_generator_next(&generator, &value) == LOT_BAD_SEED);
    CHECK(lot_generator_number(&generator, &number) == LOT_BAD_SEED);
    CHECK(lot_generator_new(0, &generator) == LOT_BAD_SEED);
    CHECK(lot_generator_new(2147483647, &generator) == LOT_BAD_SEED);
    CHECK(generator.value == 0 && value == 0 && number == 0);
    CHECK(lot_generator_new(1, &generator) == LOT_DONE);
    CHECK(lot_generator_number(&generator, &number) == LOT_DONE && number == 36090892629924);
    // 166439864623969647858139600294153, worked out from the generator's first four values.
    lot_wide wide = {0};
    CHECK(lot_generator_new(1, &generator) == LOT_DONE);
    CHECK(lot_generator_wide_number(&generator, &wide) == LOT_DONE);
    CHECK(wide.low == UINT64_C(1058603678058713353) && wide.high == UINT64_C(9022723140675));
    CHECK(generator.value == 984943658);
    CHECK(lot_generator_new(1, &generator) == LOT_DONE);
    for (int i = 0; i < 10000; i++) {
        CHECK(lot_generator_next(&generator, &value) == LOT_DONE);
    }
    CHECK(value == 1043618065);
    puts("ok: lottery alone");
}

// ---- what the header's own functions say

static bool is_event(lot_event event, lot_event meant) {
    return memcmp(&event, &meant, sizeof event) == 0;
}

// The event with 0 in each field that its kind doesn't read.
static lot_event kept_of(const lot_event *it) {
    const struct kind *reads = &kinds_of_events[it->kind];
    return (lot_event){
        .kind = it->kind,
        .processor = reads->processor ? it->processor : 0,
        .ticks = reads->ticks ? it->ticks : 0,
        .object = reads->object ? it->object : 0,
        .sent = reads->sent ? it->sent : 0,
        .script = reads->script ? it->script : 0,
        .number = reads->number ? it->number : lot_wide_of(0),
        .amount = reads->amount ? it->amount : 0,
        .ticket = reads->ticket ? it->ticket : 0,
        .currency = reads->currency ? it->currency : lot_no_name(),
        .name = reads->name ? it->name : lot_no_name(),
    };
}

// Each kind of event by its function, beside its fields; and two of them by their numbers.
static void made_events(void) {
    const lot_name a = lot_name_of("a"), b = lot_name_of("b");
    const lot_wide wide = {.low = 7, .high = 8};
    lot_event event = {.processor = 1, .ticks = 2, .object = 3, .sent = 4, .script = 5, .number = wide,
                       .amount = 6, .ticket = 9, .currency = a, .name = b};
    for (event.kind = 1; event.kind <= LAST_KIND; event.kind++) {
        CHECK(is_event(only_read(&event), kept_of(&event)));
    }
    CHECK(is_event(lot_make_funded(5, a, b, 2),
                   (lot_event){.kind = 8, .amount = 5, .currency = a, .name = b, .script = 2}));
    CHECK(is_event(lot_unlock(1, 2, 3, wide),
                   (lot_event){.kind = 19, .processor = 1, .ticks = 2, .object = 3, .number = wide}));
    const lot_sizes sizes = lot_sizes_small();
    CHECK(memcmp(&sizes, &SMALL, sizeof sizes) == 0);
    lot_kernel kernel = {&kernel};
    kernel = lot_kernel_none();
    CHECK(kernel.at == NULL);
    puts("ok: made events");
}

static bool is_unknown(const char *text) {
    return strncmp(text, "unknown ", 8) == 0;
}

// Each number has a text if and only if it has a name. The archive has the header's version.
static void texts(void) {
    for (uint32_t i = 0; i < 100; i++) {
        bool is_refusal = (i >= 1 && i <= 16) || (i >= 20 && i <= 24) || i == 30 || (i >= 32 && i <= 36);
        CHECK(is_unknown(lot_status_text(i)) == (i > LOT_NOT_SETTLED));
        CHECK(is_unknown(lot_outcome_text(i)) == (i < 1 || i > 14));
        CHECK(is_unknown(lot_refusal_text(i)) == !is_refusal);
    }
    CHECK(strcmp(lot_status_text(LOT_NO_MEMORY), "out of memory") == 0);
    CHECK(lot_version() == LOT_VERSION);
    CHECK(strcmp(lot_status_text(UINT32_MAX), "unknown status") == 0);
    CHECK(strcmp(lot_outcome_text(LOT_OUTCOME_WAITS), "waits") == 0);
    CHECK(strcmp(lot_outcome_text(UINT32_MAX), "unknown outcome") == 0);
    CHECK(strcmp(lot_refusal_text(LOT_REFUSAL_DEAD_THREAD), "the thread is dead") == 0);
    CHECK(strcmp(lot_refusal_text(UINT32_MAX), "unknown refusal") == 0);
    puts("ok: texts");
}

// What lot_goes_on reads: of a trap the flag, of a refusal the reason, and of any other reply nothing.
static void going_on(void) {
    for (uint32_t kind = 0; kind < 20; kind++) {
        lot_reply reply = {.kind = kind, .goes_on = true};
        CHECK(lot_goes_on(&reply) == (kind == LOT_REPLY_TRAPPED));
        reply.goes_on = false;
        CHECK(!lot_goes_on(&reply));
    }
    for (uint32_t reason = 0; reason < 40; reason++) {
        lot_reply reply = {.kind = LOT_REPLY_REFUSED, .reason = reason};
        CHECK(lot_goes_on(&reply) == (reason == LOT_REFUSAL_BAD_TICKS));
    }
    puts("ok: going on");
}

// ---- what the header says of hosts

// The first thread sleeps after 20 of 100 ticks: it isn't drawn. Once it is woken it is, and weighs 10 * 100 / 20. It
// dies, and keeps its name and its row.
static void sleep_and_wake(void) {
    lot_kernel kernel = made(&SMALL);
    funded(&kernel, 10, "base", "a");
    funded(&kernel, 5, "base", "b");
    CHECK(has_won(drawn(&kernel, 1, 0), 1, 0, 15));
    CHECK(came_to(answer(&kernel, lot_sleep(1, 19)), 1, LOT_OUTCOME_SLEPT, 0));
    CHECK(has_won(drawn(&kernel, 1, 0), 2, 0, 5) && answer(&kernel, lot_expire(1)).thread == 2);
    CHECK(answer(&kernel, lot_wake(1)).kind == LOT_REPLY_DONE);
    CHECK(has_won(drawn(&kernel, 1, 49), 1, 49, 55));
    CHECK(came_to(answer(&kernel, lot_exit(1, 0)), 1, LOT_OUTCOME_EXITED, 0));
    CHECK(is_refused(answer(&kernel, lot_make_thread(lot_name_of("a"), 1)), LOT_REFUSAL_NAME_TAKEN));
    CHECK(is_refused(answer(&kernel, lot_make_currency(lot_name_of("a"))), LOT_REFUSAL_NAME_TAKEN));
    lot_thread_row row;
    CHECK(lot_kernel_thread_row(&kernel, 1, &row) == LOT_DONE && row.status.kind == LOT_STATUS_DEAD);
    CHECK(is_name(row.name, "a") && row.ticks == 21 && row.quanta == 2);
    // A removed currency gives its name back, and not its number.
    CHECK(answer(&kernel, lot_make_currency(lot_name_of("x"))).currency == 1);
    CHECK(answer(&kernel, lot_remove_currency(lot_name_of("x"))).kind == LOT_REPLY_DONE);
    CHECK(answer(&kernel, lot_make_currency(lot_name_of("x"))).currency == 2);
    CHECK(lot_kernel_free(&kernel) == LOT_DONE);
    puts("ok: sleep and wake");
}

// A thread that sleeps after 10 of 100 ticks keeps its mutex. Nobody is drawn until it is woken; it then has what the
// waiter lends it too.
static void sleep_with_a_mutex(void) {
    lot_kernel kernel = made(&SMALL);
    funded(&kernel, 10, "base", "a");
    funded(&kernel, 5, "base", "b");
    CHECK(has_won(drawn(&kernel, 1, 0), 1, 0, 15));
    CHECK(came_to(answer(&kernel, lot_lock(1, 8, 1)), 1, LOT_OUTCOME_LOCKED, 0));
    CHECK(came_to(answer(&kernel, lot_sleep(1, 0)), 1, LOT_OUTCOME_SLEPT, 0));
    CHECK(has_won(drawn(&kernel, 1, 0), 2, 0, 5));
    CHECK(came_to(answer(&kernel, lot_lock(1, 0, 1)), 2, LOT_OUTCOME_WAITS, 0));
    CHECK(drawn(&kernel, 1, 0).kind == LOT_REPLY_IDLE);
    CHECK(answer(&kernel, lot_wake(1)).kind == LOT_REPLY_DONE);
    CHECK(has_won(drawn(&kernel, 1, 0), 1, 0, 150));
    CHECK(came_to(answer(&kernel, lot_unlock(1, 0, 1, lot_wide_of(0))), 1, LOT_OUTCOME_PASSED, 2));
    CHECK(lot_kernel_free(&kernel) == LOT_DONE);
    puts("ok: sleep with a mutex");
}

// A server that sleeps keeps its client. It used 2 of 100 ticks, and with what the client lends it it is worth 10.
static void sleep_with_a_client(void) {
    lot_kernel kernel = made(&SMALL);
    funded(&kernel, 5, "base", "server");
    funded(&kernel, 5, "base", "client");
    CHECK(has_won(drawn(&kernel, 1, 5), 2, 5, 10));
    CHECK(came_to(answer(&kernel, lot_call(1, 0, 1, 7)), 2, LOT_OUTCOME_QUEUED, 0));
    CHECK(has_won(drawn(&kernel, 1, 0), 1, 0, 5));
    CHECK(came_to(answer(&kernel, lot_receive(1, 0, 1)), 1, LOT_OUTCOME_RECEIVED, 2));
    CHECK(came_to(answer(&kernel, lot_sleep(1, 0)), 1, LOT_OUTCOME_SLEPT, 0));
    CHECK(drawn(&kernel, 1, 0).kind == LOT_REPLY_IDLE);
    CHECK(is_refused(answer(&kernel, lot_wake(2)), LOT_REFUSAL_NOT_ASLEEP));
    CHECK(answer(&kernel, lot_wake(1)).kind == LOT_REPLY_DONE && is_worth(&kernel, 1, 10));
    CHECK(has_won(drawn(&kernel, 1, 499), 1, 499, 500));
    CHECK(came_to(answer(&kernel, lot_reply_with(1, 0, 8)), 1, LOT_OUTCOME_REPLIED, 2));
    CHECK(lot_kernel_free(&kernel) == LOT_DONE);
    puts("ok: sleep with a client");
}

// A thread without tickets owns a mutex and yielded after 10 of 100 ticks: it is drawn by what the waiter lends it.
static void owner_without_tickets(void) {
    lot_kernel kernel = made(&SMALL);
    funded(&kernel, 10, "base", "a");
    funded(&kernel, 5, "base", "b");
    CHECK(has_won(drawn(&kernel, 1, 0), 1, 0, 15));
    CHECK(came_to(answer(&kernel, lot_lock(1, 8, 1)), 1, LOT_OUTCOME_LOCKED, 0));
    CHECK(came_to(answer(&kernel, lot_yield(1, 0)), 1, LOT_OUTCOME_YIELDED, 0));
    CHECK(answer(&kernel, lot_unfund(1)).kind == LOT_REPLY_DONE);
    CHECK(has_won(drawn(&kernel, 1, 0), 2, 0, 5));
    CHECK(came_to(answer(&kernel, lot_lock(1, 0, 1)), 2, LOT_OUTCOME_WAITS, 0));
    CHECK(has_won(drawn(&kernel, 1, 0), 1, 0, 50));
    CHECK(lot_kernel_free(&kernel) == LOT_DONE);
    puts("ok: owner without tickets");
}

// A server without a ticket is never drawn. With one it reaches its first receipt, and needs none after that: it
// weighs its client's 4 tickets, times 100 / 1 since it blocked after one tick.
static void server_without_tickets(void) {
    lot_kernel kernel = made(&SMALL);
    CHECK(answer(&kernel, lot_make_thread(lot_name_of("server"), 1)).thread == 1);
    CHECK(drawn(&kernel, 1, 0).kind == LOT_REPLY_IDLE);
    CHECK(answer(&kernel, lot_make_ticket(1, lot_name_of("base"))).ticket == 1);
    CHECK(answer(&kernel, lot_fund(1, lot_name_of("server"))).kind == LOT_REPLY_DONE);
    CHECK(has_won(drawn(&kernel, 1, 0), 1, 0, 1));
    CHECK(came_to(answer(&kernel, lot_receive(1, 0, 1)), 1, LOT_OUTCOME_WAITS, 0));
    CHECK(answer(&kernel, lot_unfund(1)).kind == LOT_REPLY_DONE);
    funded(&kernel, 4, "base", "client");
    CHECK(has_won(drawn(&kernel, 1, 0), 2, 0, 4));
    CHECK(came_to(answer(&kernel, lot_call(1, 0, 1, 7)), 2, LOT_OUTCOME_SERVED_BY, 1));
    CHECK(has_won(drawn(&kernel, 1, 0), 1, 0, 400));
    CHECK(came_to(answer(&kernel, lot_serve(1, 0, 1, 8)), 1, LOT_OUTCOME_REPLIED_THEN_WAITS, 0));
    CHECK(lot_kernel_free(&kernel) == LOT_DONE);
    puts("ok: server without tickets");
}

// A server without tickets serves a client of 1 ticket, while the calls of one of 1 and of one of 1000 wait. Thread 5
// has 1000 too. The server weighs 100 for each ticket that it has or is lent, since it blocked after one tick.
static lot_kernel with_queue(uint32_t queued_lend) {
    lot_sizes sizes = SMALL;
    sizes.queued_lend = queued_lend;
    lot_kernel kernel = made(&sizes);
    CHECK(answer(&kernel, lot_make_thread(lot_name_of("server"), 1)).thread == 1);
    CHECK(funded(&kernel, 1, "base", "served").thread == 2 && funded(&kernel, 1, "base", "poor").thread == 3);
    CHECK(funded(&kernel, 1000, "base", "rich").thread == 4 && funded(&kernel, 1000, "base", "other").thread == 5);
    CHECK(answer(&kernel, lot_make_ticket_in(1, 0)).ticket == 5);
    CHECK(answer(&kernel, lot_fund_thread(5, 1)).kind == LOT_REPLY_DONE);
    CHECK(has_won(drawn(&kernel, 1, 0), 1, 0, 2003));
    CHECK(came_to(answer(&kernel, lot_receive(1, 0, 1)), 1, LOT_OUTCOME_WAITS, 0));
    CHECK(answer(&kernel, lot_unfund(5)).kind == LOT_REPLY_DONE);
    CHECK(has_won(drawn(&kernel, 1, 0), 2, 0, 2002));
    CHECK(came_to(answer(&kernel, lot_call(1, 0, 1, 7)), 2, LOT_OUTCOME_SERVED_BY, 1));
    CHECK(has_won(drawn(&kernel, 1, 100), 3, 100, 2101));
    CHECK(came_to(answer(&kernel, lot_call(1, 0, 1, 8)), 3, LOT_OUTCOME_QUEUED, 0));
    CHECK(has_won(drawn(&kernel, 1, 200), 4, 200, queued_lend != 0 ? 2200 : 2100));
    CHECK(came_to(answer(&kernel, lot_call(1, 0, 1, 9)), 4, LOT_OUTCOME_QUEUED, 0));
    return kernel;
}

// If queued calls lend, the server that works for a poor client has the rich one's tickets already. Once it is killed
// they count for nobody, it may be removed, and the next thread that takes a call has them.
static void queued_calls(void) {
    lot_kernel lends = with_queue(7), keeps = with_queue(0);
    lot_sizes sizes;
    CHECK(lot_kernel_limits(&lends, &sizes) == LOT_DONE && sizes.queued_lend == 1 && sizes.plain_names == 0);
    CHECK(is_worth(&lends, 1, 1002) && is_worth(&lends, 3, 1) && is_worth(&lends, 4, 1000));
    CHECK(is_worth(&keeps, 1, 1) && is_worth(&keeps, 3, 0) && is_worth(&keeps, 4, 0));
    CHECK(has_won(drawn(&lends, 1, 0), 1, 0, 101200) && has_won(drawn(&keeps, 1, 0), 1, 0, 1100));
    lot_reply reply = answer(&lends, lot_serve(1, 49, 1, 5));
    CHECK(came_to(reply, 1, LOT_OUTCOME_REPLIED_THEN_RECEIVED, 3) && reply.replied_to == 2 && reply.sent == 8);
    CHECK(is_worth(&lends, 1, 1001) && is_worth(&lends, 2, 1));
    CHECK(answer(&lends, lot_kill_numbered(1)).kind == LOT_REPLY_DONE);
    CHECK(is_worth(&lends, 3, 1) && is_worth(&lends, 4, 0));
    CHECK(answer(&lends, lot_remove_thread_numbered(1)).kind == LOT_REPLY_DONE && is_gone(&lends, 1));
    CHECK(has_won(drawn(&lends, 1, 200), 5, 200, 1200));
    CHECK(came_to(answer(&lends, lot_receive(1, 0, 1)), 5, LOT_OUTCOME_RECEIVED, 4) && is_worth(&lends, 5, 2000));
    CHECK(lot_kernel_free(&lends) == LOT_DONE && lot_kernel_free(&keeps) == LOT_DONE);
    puts("ok: queued calls");
}

// A server that calls its own port lends to nobody there, and neither does its client. Another thread that receives
// the call has what both are worth.
static void queued_at_own_port(void) {
    lot_sizes sizes = SMALL;
    sizes.queued_lend = 1;
    lot_kernel kernel = made(&sizes);
    funded(&kernel, 10, "base", "server");
    funded(&kernel, 20, "base", "client");
    funded(&kernel, 5, "base", "other");
    CHECK(has_won(drawn(&kernel, 1, 0), 1, 0, 35));
    CHECK(came_to(answer(&kernel, lot_receive(1, 0, 1)), 1, LOT_OUTCOME_WAITS, 0));
    CHECK(has_won(drawn(&kernel, 1, 0), 2, 0, 25));
    CHECK(came_to(answer(&kernel, lot_call(1, 0, 1, 5)), 2, LOT_OUTCOME_SERVED_BY, 1));
    CHECK(has_won(drawn(&kernel, 1, 0), 1, 0, 3005));
    CHECK(came_to(answer(&kernel, lot_call(1, 0, 1, 6)), 1, LOT_OUTCOME_QUEUED, 0));
    CHECK(is_worth(&kernel, 1, 0) && is_worth(&kernel, 2, 0) && is_worth(&kernel, 3, 5));
    CHECK(has_won(drawn(&kernel, 1, 0), 3, 0, 5));
    CHECK(came_to(answer(&kernel, lot_receive(1, 0, 1)), 3, LOT_OUTCOME_RECEIVED, 1));
    CHECK(is_worth(&kernel, 1, 30) && is_worth(&kernel, 2, 20) && is_worth(&kernel, 3, 35));
    CHECK(lot_kernel_free(&kernel) == LOT_DONE);
    puts("ok: queued at its own port");
}

// A server locks the mutex of a thread whose call waits at its port. It waits, and the port has no server then. Another
// thread that receives the call has what all of them are worth. What holds a port's server is no mutex.
static void lock_through_a_port(void) {
    lot_sizes sizes = SMALL;
    sizes.queued_lend = 1;
    lot_kernel kernel = made(&sizes);
    funded(&kernel, 10, "base", "client");
    funded(&kernel, 20, "base", "server");
    funded(&kernel, 30, "base", "owner");
    funded(&kernel, 5, "base", "other");
    CHECK(has_won(drawn(&kernel, 1, 0), 1, 0, 65));
    CHECK(came_to(answer(&kernel, lot_call(1, 0, 1, 7)), 1, LOT_OUTCOME_QUEUED, 0));
    CHECK(has_won(drawn(&kernel, 1, 0), 2, 0, 55));
    CHECK(came_to(answer(&kernel, lot_receive(1, 0, 1)), 2, LOT_OUTCOME_RECEIVED, 1));
    CHECK(has_won(drawn(&kernel, 2, 0), 3, 0, 35));
    CHECK(came_to(answer(&kernel, lot_lock(2, 0, 1)), 3, LOT_OUTCOME_LOCKED, 0));
    CHECK(came_to(answer(&kernel, lot_call(2, 0, 1, 8)), 3, LOT_OUTCOME_QUEUED, 0));
    CHECK(is_worth(&kernel, 1, 10) && is_worth(&kernel, 2, 60) && is_worth(&kernel, 3, 30));
    CHECK(is_trap_refused(answer(&kernel, lot_lock(1, 0, 3)), LOT_TRAP_REFUSAL_NO_MUTEX));
    CHECK(is_trap_refused(answer(&kernel, lot_unlock(1, 0, 3, lot_wide_of(0))), LOT_TRAP_REFUSAL_NO_MUTEX));
    CHECK(came_to(answer(&kernel, lot_lock(1, 0, 1)), 2, LOT_OUTCOME_WAITS, 0));
    CHECK(is_worth(&kernel, 1, 0) && is_worth(&kernel, 2, 0) && is_worth(&kernel, 3, 0) && is_worth(&kernel, 4, 5));
    CHECK(has_won(drawn(&kernel, 2, 0), 4, 0, 5));
    CHECK(came_to(answer(&kernel, lot_receive(2, 0, 1)), 4, LOT_OUTCOME_RECEIVED, 3));
    CHECK(is_worth(&kernel, 1, 10) && is_worth(&kernel, 2, 30) && is_worth(&kernel, 3, 60) && is_worth(&kernel, 4, 65));
    CHECK(lot_kernel_free(&kernel) == LOT_DONE);
    puts("ok: a lock through a port");
}

// The cycle of a lock passes two ports: the owner's call waits at port 2, whose server's call waits at port 1. Both
// ports have no server then. So the thread that takes the call at port 1 has what the server of port 2 and its client
// are worth, and not what waits there.
static void lock_through_two_ports(void) {
    lot_sizes sizes = SMALL;
    sizes.queued_lend = 1;
    lot_kernel kernel = made(&sizes);
    static const uint64_t amounts[6] = {20, 40, 10, 50, 30, 5};
    for (uint32_t i = 0; i < 6; i++) {
        CHECK(answer(&kernel, lot_make_funded_in(amounts[i], 0, lot_no_name(), 1)).thread == i + 1);
    }
    CHECK(has_won(drawn(&kernel, 1, 0), 1, 0, 155));
    CHECK(came_to(answer(&kernel, lot_receive(1, 0, 2)), 1, LOT_OUTCOME_WAITS, 0));
    CHECK(has_won(drawn(&kernel, 1, 0), 2, 0, 135));
    CHECK(came_to(answer(&kernel, lot_call(1, 0, 2, 1)), 2, LOT_OUTCOME_SERVED_BY, 1));
    CHECK(has_won(drawn(&kernel, 1, 6000), 3, 6000, 6095));
    CHECK(came_to(answer(&kernel, lot_receive(1, 0, 1)), 3, LOT_OUTCOME_WAITS, 0));
    CHECK(has_won(drawn(&kernel, 1, 6000), 4, 6000, 6085));
    CHECK(came_to(answer(&kernel, lot_call(1, 0, 1, 2)), 4, LOT_OUTCOME_SERVED_BY, 3));
    CHECK(has_won(drawn(&kernel, 1, 0), 1, 0, 12035));
    CHECK(came_to(answer(&kernel, lot_call(1, 0, 1, 3)), 1, LOT_OUTCOME_QUEUED, 0) && is_worth(&kernel, 3, 120));
    CHECK(has_won(drawn(&kernel, 1, 12000), 5, 12000, 12035));
    CHECK(came_to(answer(&kernel, lot_lock(1, 0, 1)), 5, LOT_OUTCOME_LOCKED, 0));
    CHECK(came_to(answer(&kernel, lot_call(1, 0, 2, 4)), 5, LOT_OUTCOME_QUEUED, 0) && is_worth(&kernel, 3, 150));
    CHECK(has_won(drawn(&kernel, 1, 0), 3, 0, 15005));
    CHECK(came_to(answer(&kernel, lot_lock(1, 0, 1)), 3, LOT_OUTCOME_WAITS, 0));
    CHECK(has_won(drawn(&kernel, 1, 0), 6, 0, 5));
    CHECK(came_to(answer(&kernel, lot_receive(1, 0, 1)), 6, LOT_OUTCOME_RECEIVED, 1));
    CHECK(is_worth(&kernel, 1, 60) && is_worth(&kernel, 3, 0) && is_worth(&kernel, 5, 0) && is_worth(&kernel, 6, 65));
    CHECK(came_to(answer(&kernel, lot_receive(1, 0, 2)), 6, LOT_OUTCOME_RECEIVED, 5));
    CHECK(is_worth(&kernel, 3, 60) && is_worth(&kernel, 5, 90) && is_worth(&kernel, 6, 155));
    CHECK(lot_kernel_free(&kernel) == LOT_DONE);
    puts("ok: a lock through two ports");
}

// A settled kernel shows its rows to calls that only read, until an event leaves a value stale.
static void settled_rows(void) {
    lot_kernel kernel = made(&SMALL);
    const lot_kernel *reader = &kernel;
    make_graph(&kernel);
    lot_thread_row thread, other_thread;
    lot_currency_row currency, other_currency;
    lot_ticket_row ticket, other_ticket;
    memset(&thread, 0x5a, sizeof thread);
    other_thread = thread;
    CHECK(lot_kernel_settled_thread_row(reader, 1, &thread) == LOT_NOT_SETTLED);
    CHECK(lot_kernel_settled_thread_row(reader, 99, &thread) == LOT_NOT_SETTLED);
    CHECK(lot_kernel_settled_currency_row(reader, 0, &currency) == LOT_NOT_SETTLED);
    CHECK(lot_kernel_settled_ticket_row(reader, 1, &ticket) == LOT_NOT_SETTLED);
    CHECK(memcmp(&thread, &other_thread, sizeof thread) == 0);
    CHECK(lot_kernel_settle(&kernel) == LOT_DONE && lot_kernel_settle(&kernel) == LOT_DONE);
    lot_meter before, behind;
    CHECK(lot_kernel_meter(reader, &before) == LOT_DONE);
    for (uint32_t i = 1; i <= 3; i++) {
        CHECK(lot_kernel_settled_thread_row(reader, i, &thread) == LOT_DONE);
        CHECK(lot_kernel_thread_row(&kernel, i, &other_thread) == LOT_DONE && SAME(thread, other_thread, name));
    }
    for (uint32_t i = 0; i <= 5; i++) {
        CHECK(lot_kernel_settled_currency_row(reader, i, &currency) == LOT_DONE);
        CHECK(lot_kernel_currency_row(&kernel, i, &other_currency) == LOT_DONE);
        CHECK(SAME(currency, other_currency, name));
    }
    CHECK(lot_kernel_meter(reader, &behind) == LOT_DONE && before.ticket_reads == behind.ticket_reads);
    for (uint32_t i = 1; i <= 8; i++) {
        CHECK(lot_kernel_settled_ticket_row(reader, i, &ticket) == LOT_DONE);
        CHECK(lot_kernel_ticket_row(&kernel, i, &other_ticket) == LOT_DONE && SAME(ticket, other_ticket, is_active));
    }
    CHECK(lot_kernel_settled_thread_row(reader, 4, &thread) == LOT_NOT_THERE);
    CHECK(lot_kernel_settled_currency_row(reader, 6, &currency) == LOT_NOT_THERE);
    CHECK(lot_kernel_settled_ticket_row(reader, 0, &ticket) == LOT_NOT_THERE);
    CHECK(is_refused(answer(&kernel, lot_set_ticket(99, 1)), LOT_REFUSAL_NO_TICKET));
    CHECK(lot_kernel_settled_thread_row(reader, 2, &thread) == LOT_DONE && thread.value == 600);
    CHECK(answer(&kernel, lot_set_ticket(6, 1)).kind == LOT_REPLY_DONE);
    CHECK(lot_kernel_settled_thread_row(reader, 2, &thread) == LOT_NOT_SETTLED && thread.value == 600);
    CHECK(lot_kernel_settle(&kernel) == LOT_DONE);
    CHECK(lot_kernel_settled_thread_row(reader, 2, &thread) == LOT_DONE && thread.value == 996);
    CHECK(lot_kernel_free(&kernel) == LOT_DONE);
    puts("ok: settled rows");
}

// ---- what no call takes

// A lot_kernel that holds none: each call but lot_kernel_free says so, and all of them write nothing.
static void no_kernel(void) {
    lot_kernel none = LOT_KERNEL_NONE;
    unsigned char room[128], before[128];
    memset(room, 0xa5, sizeof room);
    memcpy(before, room, sizeof room);
    lot_event event = lot_draw(1, lot_wide_of(0));
    lot_reply reply;
    memset(&reply, 0xa5, sizeof reply);
    lot_reply as_before = reply;
    CHECK(lot_kernel_event(&none, &event, &reply) == LOT_NO_KERNEL);
    size_t done = 77;
    CHECK(lot_kernel_run(&none, &event, 1, &reply, 1, &done) == LOT_NO_KERNEL && done == 77);
    CHECK(memcmp(&reply, &as_before, sizeof reply) == 0);
    CHECK(lot_kernel_ticket_row(&none, 1, (lot_ticket_row *)(void *)room) == LOT_NO_KERNEL);
    CHECK(lot_kernel_currency_row(&none, 0, (lot_currency_row *)(void *)room) == LOT_NO_KERNEL);
    CHECK(lot_kernel_thread_row(&none, 1, (lot_thread_row *)(void *)room) == LOT_NO_KERNEL);
    CHECK(lot_kernel_settle(&none) == LOT_NO_KERNEL && none.at == NULL);
    CHECK(lot_kernel_settled_ticket_row(&none, 1, (lot_ticket_row *)(void *)room) == LOT_NO_KERNEL);
    CHECK(lot_kernel_settled_currency_row(&none, 0, (lot_currency_row *)(void *)room) == LOT_NO_KERNEL);
    CHECK(lot_kernel_settled_thread_row(&none, 1, (lot_thread_row *)(void *)room) == LOT_NO_KERNEL);
    CHECK(lot_kernel_runner(&none, 1, (lot_runner *)(void *)room) == LOT_NO_KERNEL);
    CHECK(lot_kernel_script_of(&none, 1, (uint32_t *)(void *)room) == LOT_NO_KERNEL);
    CHECK(lot_kernel_ticket_count(&none, (uint32_t *)(void *)room) == LOT_NO_KERNEL);
    CHECK(lot_kernel_currency_count(&none, (uint32_t *)(void *)room) == LOT_NO_KERNEL);
    CHECK(lot_kernel_limits(&none, (lot_sizes *)(void *)room) == LOT_NO_KERNEL);
    CHECK(lot_kernel_meter(&none, (lot_meter *)(void *)room) == LOT_NO_KERNEL);
    CHECK(memcmp(room, before, sizeof room) == 0);
    CHECK(lot_kernel_free(&none) == LOT_DONE && none.at == NULL);
    lot_kernel kernel = made(&SMALL);
    void *at = kernel.at;
    CHECK(lot_kernel_new(&SMALL, &kernel) == LOT_KERNEL_THERE && kernel.at == at);
    CHECK(lot_kernel_free(&kernel) == LOT_DONE && kernel.at == NULL);
    CHECK(lot_kernel_free(&kernel) == LOT_DONE && kernel.at == NULL);
    uint32_t (*volatile freeing)(lot_kernel *) = lot_kernel_free; // not inlined
    CHECK(lot_kernel_free(NULL) == LOT_DONE && freeing(NULL) == LOT_DONE);
    kernel = made(&SMALL);
    CHECK(freeing(&kernel) == LOT_DONE && kernel.at == NULL);
    puts("ok: no kernel");
}

static uint32_t *size_at(lot_sizes *sizes, size_t i) {
    uint32_t *fields[9] = {&sizes->tickets, &sizes->currencies, &sizes->threads, &sizes->ports, &sizes->mutexes,
                           &sizes->processors, &sizes->scripts, &sizes->quantum, &sizes->unit};
    return fields[i];
}

// Each size below and above its bounds, and the smallest and largest that there may be.
static void limits(void) {
    static const uint32_t least[9] = {1, 1, 1, 0, 0, 1, 0, 1, 1};
    static const uint32_t most[9] = {65535, 4096, 4096, 256, 256, 64, 256, 1000, 256};
    for (size_t i = 0; i < 9; i++) {
        const uint32_t outside[4] = {least[i] - 1, most[i] + 1, UINT32_MAX, 2};
        for (size_t k = 0; k < (i == 8 ? 4 : 3); k++) {
            lot_kernel kernel = LOT_KERNEL_NONE;
            lot_sizes sizes = SMALL;
            *size_at(&sizes, i) = outside[k];
            CHECK(lot_kernel_new(&sizes, &kernel) == LOT_BAD_LIMITS && kernel.at == NULL);
        }
    }
    lot_sizes smallest = SMALL, largest = SMALL;
    largest.reuse = 1;
    for (size_t i = 0; i < 9; i++) {
        *size_at(&smallest, i) = least[i];
        *size_at(&largest, i) = most[i];
    }
    lot_kernel small = made(&smallest), large = made(&largest);
    CHECK(lot_kernel_free(&small) == LOT_DONE && lot_kernel_free(&large) == LOT_DONE);
    puts("ok: limits");
}

// Whether an event only has this status, and no reply.
static bool only_fails(lot_kernel *kernel, const lot_event *event, uint32_t status) {
    lot_reply reply, before;
    memset(&reply, 0x5a, sizeof reply);
    memset(&before, 0x5a, sizeof before);
    return lot_kernel_event(kernel, event, &reply) == status && memcmp(&reply, &before, sizeof reply) == 0;
}

// Each kind that there isn't, and each name that isn't one: a status of its own, no reply, and nothing changed.
static void kinds_and_names(void) {
    static const uint32_t kinds[6] = {0, LAST_KIND + 1, LAST_KIND + 2, 255, 1u << 31, UINT32_MAX};
    static const struct {
        const char *text;
        uint32_t length, status;
    } names[9] = {{"", 0, LOT_BAD_NAME},          {"a b", 3, LOT_BAD_NAME},  {"Base", 4, LOT_BAD_NAME},
                  {"9a", 2, LOT_BAD_NAME},        {"a\xff", 2, LOT_BAD_NAME}, {"-a", 2, LOT_BAD_NAME},
                  {"base", 17, LOT_LONG_NAME},    {"base", UINT32_MAX, LOT_LONG_NAME}, {"base", 5, LOT_BAD_NAME}};
    lot_kernel kernel = made(&SMALL);
    for (size_t i = 0; i < 6; i++) {
        lot_event event = lot_event_of(kinds[i]);
        CHECK(only_fails(&kernel, &event, LOT_BAD_KIND));
    }
    // In the place of a currency and in that of another name. A kind that makes a thread needs no name.
    for (uint32_t kind = 1; kind <= LAST_KIND; kind++) {
        const struct kind *reads = &kinds_of_events[kind];
        for (size_t i = 0; i < 9; i++) {
            lot_event event = lot_make_funded(1, lot_name_of("base"), lot_name_of("fresh"), 1);
            event.kind = kind;
            event.ticket = 1;
            lot_event other = event;
            event.currency = other.name = lot_name_of(names[i].text);
            event.currency.length = other.name.length = names[i].length;
            bool needs_name = reads->name && (i != 0 || !reads->makes_thread);
            CHECK(!reads->currency || only_fails(&kernel, &event, names[i].status));
            CHECK(!needs_name || only_fails(&kernel, &other, names[i].status));
        }
    }
    uint32_t count = 0;
    CHECK(lot_kernel_ticket_count(&kernel, &count) == LOT_DONE && count == 0);
    CHECK(lot_kernel_currency_count(&kernel, &count) == LOT_DONE && count == 1);
    CHECK(lot_kernel_free(&kernel) == LOT_DONE);
    puts("ok: kinds and names");
}

// Names by their bytes.
static void names(void) {
    lot_name name = lot_name_of("kept");
    CHECK(lot_name_new((const uint8_t *)"a-very-long-name-", 17, &name) == LOT_LONG_NAME);
    CHECK(lot_name_new((const uint8_t *)"A", 1, &name) == LOT_BAD_NAME && is_name(name, "kept"));
    CHECK(lot_name_new((const uint8_t *)"sixteen-bytes-ok", 16, &name) == LOT_DONE);
    CHECK(is_name(name, "sixteen-bytes-ok"));
    CHECK(lot_name_of("a-very-long-name-indeed").length == 17);
    CHECK(lot_name_new((const uint8_t *)"", 0, &name) == LOT_BAD_NAME && is_name(name, "sixteen-bytes-ok"));
    CHECK(lot_plain_name_new((const uint8_t *)"", 0, &name) == LOT_BAD_NAME && is_name(name, "sixteen-bytes-ok"));
    CHECK(lot_plain_name_new((const uint8_t *)"A.very/long=name!", 17, &name) == LOT_LONG_NAME);
    CHECK(lot_plain_name_new((const uint8_t *)"A.very long=name", 16, &name) == LOT_BAD_NAME);
    CHECK(is_name(name, "sixteen-bytes-ok"));
    CHECK(lot_plain_name_new((const uint8_t *)"A.very/long=name", 16, &name) == LOT_DONE);
    CHECK(is_name(name, "A.very/long=name") && is_name(lot_no_name(), ""));
    puts("ok: names");
}

// Many events: up to the first with a status of its own, and none if there are not as many replies.
static void runs(void) {
    lot_kernel kernel = made(&SMALL);
    lot_event events[4] = {lot_make_currency(lot_name_of("x")), lot_make_currency(lot_name_of("y")),
                           lot_event_of(LAST_KIND + 1), lot_make_currency(lot_name_of("z"))};
    lot_reply replies[4], before;
    memset(replies, 0x5a, sizeof replies);
    before = replies[2];
    size_t done = 9;
    CHECK(lot_kernel_run(&kernel, events, 4, replies, 3, &done) == LOT_COUNTS_DIFFER && done == 9);
    CHECK(lot_kernel_run(&kernel, events, 4, replies, 4, &done) == LOT_BAD_KIND && done == 2);
    CHECK(replies[0].currency == 1 && replies[1].currency == 2);
    CHECK(memcmp(&replies[2], &before, sizeof before) == 0 && memcmp(&replies[3], &before, sizeof before) == 0);
    CHECK(lot_kernel_run(&kernel, events + 3, 1, replies, 1, &done) == LOT_DONE && done == 1);
    CHECK(replies[0].currency == 3);
    CHECK(lot_kernel_run(&kernel, events, 0, replies, 0, &done) == LOT_DONE && done == 0);
    CHECK(lot_kernel_free(&kernel) == LOT_DONE);
    puts("ok: runs");
}

// ---- any bytes

// Half of the events are bytes alone; in the others some fields are such as to mean something.
static lot_event random_event(void) {
    static const char *const names[9] = {"base", "a", "b", "c", "d", "e", "f", "g", ""};
    lot_event event;
    for (size_t i = 0; i < sizeof event; i += 8) {
        uint64_t bits = random_bits();
        memcpy((char *)&event + i, &bits, 8);
    }
    if (random_bits() % 2 == 0) {
        return event;
    }
    event.kind = (uint32_t)(random_bits() % (LAST_KIND + 2));
    event.processor = (uint32_t)(random_bits() % 4);
    event.ticks = (uint32_t)(random_bits() % 120);
    event.object = (uint32_t)(random_bits() % 4);
    event.script = (uint32_t)(random_bits() % 3);
    event.ticket = random_bits() % 70;
    event.amount = random_bits() % 1000;
    if (random_bits() % 8 != 0) {
        event.currency = lot_name_of(names[random_bits() % 8]);
        event.name = lot_name_of(names[random_bits() % 9]);
    }
    // Ends and sleeps are rare, so that there is somebody to run.
    bool is_end = event.kind == LOT_EXIT || event.kind == LOT_KILL || event.kind == LOT_KILL_NUMBERED;
    if (is_end && random_bits() % 4096 != 0) {
        event.kind = LOT_DRAW;
    } else if (event.kind == LOT_SLEEP && random_bits() % 8 != 0) {
        event.kind = LOT_WAKE;
    }
    if (event.kind == LOT_WAKE) {
        event.object = (uint32_t)(random_bits() % (SMALL.threads + 2));
    }
    return event;
}

static bool same_threads(lot_kernel *first, lot_kernel *second) {
    for (uint32_t thread = 1; thread <= SMALL.threads; thread++) {
        lot_thread_row a, b;
        memset(&a, 0, sizeof a);
        memset(&b, 0, sizeof b);
        uint32_t status = lot_kernel_thread_row(first, thread, &a);
        if (status != lot_kernel_thread_row(second, thread, &b) || !SAME(a, b, name)) {
            return false;
        }
    }
    return true;
}

static bool same_tickets(lot_kernel *first, lot_kernel *second) {
    uint32_t count = 0, other = 0;
    CHECK(lot_kernel_ticket_count(first, &count) == LOT_DONE && lot_kernel_ticket_count(second, &other) == LOT_DONE);
    for (uint32_t ticket = 1; ticket <= count; ticket++) {
        lot_ticket_row a, b;
        memset(&a, 0, sizeof a);
        memset(&b, 0, sizeof b);
        uint32_t status = lot_kernel_ticket_row(first, ticket, &a);
        if (status != lot_kernel_ticket_row(second, ticket, &b) || !SAME(a, b, is_active)) {
            return false;
        }
    }
    return count == other;
}

static bool same_currencies(lot_kernel *first, lot_kernel *second) {
    uint32_t count = 0, other = 0;
    CHECK(lot_kernel_currency_count(first, &count) == LOT_DONE);
    CHECK(lot_kernel_currency_count(second, &other) == LOT_DONE);
    for (uint32_t currency = 0; currency < count; currency++) {
        lot_currency_row a, b;
        memset(&a, 0, sizeof a);
        memset(&b, 0, sizeof b);
        uint32_t status = lot_kernel_currency_row(first, currency, &a);
        if (status != lot_kernel_currency_row(second, currency, &b) || !SAME(a, b, name)) {
            return false;
        }
    }
    return count == other;
}

static bool somebody_runs(lot_kernel *kernel, uint32_t processor) {
    lot_runner runner;
    return lot_kernel_runner(kernel, processor, &runner) == LOT_DONE;
}

// A kernel that got events of any bytes lists what one lists that got only those that were not refused. After each
// trap a thread runs on its processor if and only if lot_goes_on says so. A reply has a reason if and only if
// lot_refused says that it is a refusal.
static void any_bytes(unsigned long count) {
    lot_kernel all = made(&SMALL), some = made(&SMALL);
    seed = 1;
    unsigned long answered = 0, refused = 0, kept = 0;
    for (unsigned long i = 0; i < count; i++) {
        lot_event event = random_event();
        lot_reply reply, other;
        memset(&reply, 0, sizeof reply);
        memset(&other, 0, sizeof other);
        uint32_t status = lot_kernel_event(&all, &event, &reply);
        if (status != LOT_DONE) {
            CHECK(status == LOT_BAD_KIND || status == LOT_LONG_NAME || status == LOT_BAD_NAME);
            continue;
        }
        answered++;
        CHECK(lot_refused(&reply) == (reply.reason != 0));
        CHECK(!kinds_of_events[event.kind].is_trap || lot_goes_on(&reply) == somebody_runs(&all, event.processor));
        bool may_run = reply.kind == LOT_REPLY_WINNER || reply.kind == LOT_REPLY_TRAPPED;
        CHECK(reply.goes_on == (may_run && somebody_runs(&all, event.processor)));
        if (reply.kind == LOT_REPLY_REFUSED) {
            refused++;
            continue;
        }
        kept++;
        CHECK(lot_kernel_event(&some, &event, &other) == LOT_DONE);
        CHECK(SAME(reply, other, goes_on));
    }
    CHECK(same_tickets(&all, &some) && same_currencies(&all, &some) && same_threads(&all, &some));
    CHECK(lot_kernel_free(&all) == LOT_DONE && lot_kernel_free(&some) == LOT_DONE);
    printf("ok: any bytes: %lu events, %lu with a meaning, %lu refused, %lu kept\n", count, answered, refused, kept);
}

int main(int argc, char **argv) {
    list_lottery();
    currency_graph();
    inflation();
    removal();
    numbered();
    given_again();
    no_names();
    no_names_given_again();
    plain_names();
    removal_in_use();
    killed_runner();
    killed_server();
    killed_client();
    killed_at_a_port();
    killed_owner();
    killed_waiter();
    killed_sleeper();
    sleeping();
    sleepers_tickets();
    sleep_refusals();
    preemption();
    overruns();
    overrun_refusals();
    call_and_reply();
    servings();
    refusals();
    trap_refusals();
    lottery_alone();
    made_events();
    texts();
    going_on();
    sleep_and_wake();
    sleep_with_a_mutex();
    sleep_with_a_client();
    owner_without_tickets();
    server_without_tickets();
    queued_calls();
    queued_at_own_port();
    lock_through_a_port();
    lock_through_two_ports();
    settled_rows();
    no_kernel();
    limits();
    kinds_and_names();
    names();
    runs();
    any_bytes(argc > 1 ? strtoul(argv[1], NULL, 10) : 1000000);
    return 0;
}
