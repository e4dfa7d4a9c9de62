// What the tests know of each kind of events, and the last number of each enum.
// Made by `bindings/write_tables` of `crates/lot_c/specs/Numbers.antt`.

#ifndef TEST_KINDS_H
#define TEST_KINDS_H

#include "lot.h"

enum {
    LAST_KIND = LOT_KILL_NUMBERED,
    LAST_REPLY = LOT_REPLY_REFUSED,
    LAST_OUTCOME = LOT_OUTCOME_SLEPT,
    LAST_REFUSAL = LOT_TRAP_REFUSAL_LOCK_CYCLE,
    LAST_STATUS = LOT_STATUS_ASLEEP
};

struct kind {
    uint32_t named;    // of a command by number, the kind by name
    bool of_thread;    // whether it has the number of a thread
    bool makes_thread; // which may have no name
    bool is_trap;
    bool processor, ticks, object, sent, script, number, amount, ticket, currency, name; // whether it reads the field
};

static const struct kind kinds_of_events[LAST_KIND + 1] = {
    [LOT_MAKE_TICKET] = {.amount = true, .currency = true},
    [LOT_REMOVE_TICKET] = {.ticket = true},
    [LOT_MAKE_CURRENCY] = {.name = true},
    [LOT_REMOVE_CURRENCY] = {.currency = true},
    [LOT_FUND] = {.ticket = true, .name = true},
    [LOT_UNFUND] = {.ticket = true},
    [LOT_MAKE_THREAD] = {.name = true, .script = true, .makes_thread = true},
    [LOT_MAKE_FUNDED] = {.amount = true, .currency = true, .name = true, .script = true, .makes_thread = true},
    [LOT_LIST_TICKETS] = {0},
    [LOT_LIST_CURRENCIES] = {0},
    [LOT_LIST_THREADS] = {0},
    [LOT_DRAW] = {.processor = true, .number = true},
    [LOT_EXPIRE] = {.processor = true},
    [LOT_YIELD] = {.processor = true, .ticks = true, .is_trap = true},
    [LOT_CALL] = {.processor = true, .ticks = true, .object = true, .sent = true, .is_trap = true},
    [LOT_RECEIVE] = {.processor = true, .ticks = true, .object = true, .is_trap = true},
    [LOT_REPLY] = {.processor = true, .ticks = true, .sent = true, .is_trap = true},
    [LOT_LOCK] = {.processor = true, .ticks = true, .object = true, .is_trap = true},
    [LOT_UNLOCK] = {.processor = true, .ticks = true, .object = true, .number = true, .is_trap = true},
    [LOT_EXIT] = {.processor = true, .ticks = true, .is_trap = true},
    [LOT_SERVE] = {.processor = true, .ticks = true, .object = true, .sent = true, .is_trap = true},
    [LOT_SET_TICKET] = {.ticket = true, .amount = true},
    [LOT_REMOVE_THREAD] = {.name = true},
    [LOT_SLEEP] = {.processor = true, .ticks = true, .is_trap = true},
    [LOT_PREEMPT] = {.processor = true, .ticks = true},
    [LOT_OVERRUN] = {.processor = true, .ticks = true},
    [LOT_WAKE] = {.object = true, .of_thread = true},
    [LOT_MAKE_TICKET_IN] = {.named = LOT_MAKE_TICKET, .amount = true, .object = true},
    [LOT_REMOVE_CURRENCY_NUMBERED] = {.named = LOT_REMOVE_CURRENCY, .object = true},
    [LOT_FUND_CURRENCY] = {.named = LOT_FUND, .ticket = true, .object = true},
    [LOT_FUND_THREAD] = {.named = LOT_FUND, .ticket = true, .object = true, .of_thread = true},
    [LOT_REMOVE_THREAD_NUMBERED] = {.named = LOT_REMOVE_THREAD, .object = true, .of_thread = true},
    [LOT_MAKE_FUNDED_IN] = {.named = LOT_MAKE_FUNDED, .amount = true, .object = true, .name = true, .script = true,
        .makes_thread = true},
    [LOT_KILL] = {.name = true},
    [LOT_KILL_NUMBERED] = {.named = LOT_KILL, .object = true, .of_thread = true},
};

// The event that the function of its kind makes of the fields that it reads.
static inline lot_event only_read(const lot_event *it) {
    switch ((lot_event_kind)it->kind) {
    case LOT_MAKE_TICKET: return lot_make_ticket(it->amount, it->currency);
    case LOT_REMOVE_TICKET: return lot_remove_ticket(it->ticket);
    case LOT_MAKE_CURRENCY: return lot_make_currency(it->name);
    case LOT_REMOVE_CURRENCY: return lot_remove_currency(it->currency);
    case LOT_FUND: return lot_fund(it->ticket, it->name);
    case LOT_UNFUND: return lot_unfund(it->ticket);
    case LOT_MAKE_THREAD: return lot_make_thread(it->name, it->script);
    case LOT_MAKE_FUNDED: return lot_make_funded(it->amount, it->currency, it->name, it->script);
    case LOT_LIST_TICKETS: return lot_list_tickets();
    case LOT_LIST_CURRENCIES: return lot_list_currencies();
    case LOT_LIST_THREADS: return lot_list_threads();
    case LOT_DRAW: return lot_draw(it->processor, it->number);
    case LOT_EXPIRE: return lot_expire(it->processor);
    case LOT_YIELD: return lot_yield(it->processor, it->ticks);
    case LOT_CALL: return lot_call(it->processor, it->ticks, it->object, it->sent);
    case LOT_RECEIVE: return lot_receive(it->processor, it->ticks, it->object);
    case LOT_REPLY: return lot_reply_with(it->processor, it->ticks, it->sent);
    case LOT_LOCK: return lot_lock(it->processor, it->ticks, it->object);
    case LOT_UNLOCK: return lot_unlock(it->processor, it->ticks, it->object, it->number);
    case LOT_EXIT: return lot_exit(it->processor, it->ticks);
    case LOT_SERVE: return lot_serve(it->processor, it->ticks, it->object, it->sent);
    case LOT_SET_TICKET: return lot_set_ticket(it->ticket, it->amount);
    case LOT_REMOVE_THREAD: return lot_remove_thread(it->name);
    case LOT_SLEEP: return lot_sleep(it->processor, it->ticks);
    case LOT_PREEMPT: return lot_preempt(it->processor, it->ticks);
    case LOT_OVERRUN: return lot_overrun(it->processor, it->ticks);
    case LOT_WAKE: return lot_wake(it->object);
    case LOT_MAKE_TICKET_IN: return lot_make_ticket_in(it->amount, it->object);
    case LOT_REMOVE_CURRENCY_NUMBERED: return lot_remove_currency_numbered(it->object);
    case LOT_FUND_CURRENCY: return lot_fund_currency(it->ticket, it->object);
    case LOT_FUND_THREAD: return lot_fund_thread(it->ticket, it->object);
    case LOT_REMOVE_THREAD_NUMBERED: return lot_remove_thread_numbered(it->object);
    case LOT_MAKE_FUNDED_IN: return lot_make_funded_in(it->amount, it->object, it->name, it->script);
    case LOT_KILL: return lot_kill(it->name);
    case LOT_KILL_NUMBERED: return lot_kill_numbered(it->object);
    }
    return *it;
}

#endif
