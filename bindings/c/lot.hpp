// lot.hpp: the events of lot.h, with a type for each sort of number, so that swapped handles don't compile. For C++11
// and later. It is a header alone, and needs the same archive. Ticks and amounts are plain numbers.
// Made by `bindings/write_tables` of `crates/lot_c/specs/Numbers.antt`.
//
//     const lot::Thread thread = lot::thread_of(reply);
//     kernel.event(lot::fund(lot::ticket_of(reply), thread)); // and no lot::fund(thread, ..)
//
// A function has the name of that of lot.h without `lot_`, and without what says that it takes a number: lot::fund is
// lot_fund, lot_fund_currency and lot_fund_thread, whichever takes what is given. lot.h says what each does. Some have
// names of the system's calls, as lot::exit and lot::kill: so write `lot::` before them.

#ifndef LOT_HPP
#define LOT_HPP

#include "lot.h"

#include <cstdint>

namespace lot {

// A number of one sort. Nothing becomes one except by this constructor, and its `number` alone is a plain one.
template <typename Sort> struct Number {
    std::uint32_t number;

    constexpr explicit Number(std::uint32_t of) : number(of) {}

    constexpr bool operator==(Number other) const {
        return number == other.number;
    }

    constexpr bool operator!=(Number other) const {
        return number != other.number;
    }
};

using Processor = Number<struct ProcessorSort>;
using Ticket = Number<struct TicketSort>;
using Currency = Number<struct CurrencySort>;
using Thread = Number<struct ThreadSort>;
using Port = Number<struct PortSort>;
using Mutex = Number<struct MutexSort>;

constexpr Currency base(0);

// The numbers that a reply has. Its kind says which.
inline Ticket ticket_of(const lot_reply &reply) {
    return Ticket(reply.ticket);
}

inline Currency currency_of(const lot_reply &reply) {
    return Currency(reply.currency);
}

inline Thread thread_of(const lot_reply &reply) {
    return Thread(reply.thread);
}

inline lot_event make_ticket(std::uint64_t amount, lot_name currency) {
    return lot_make_ticket(amount, currency);
}

inline lot_event remove_ticket(Ticket ticket) {
    return lot_remove_ticket(ticket.number);
}

inline lot_event make_currency(lot_name name) {
    return lot_make_currency(name);
}

inline lot_event remove_currency(lot_name currency) {
    return lot_remove_currency(currency);
}

inline lot_event fund(Ticket ticket, lot_name target) {
    return lot_fund(ticket.number, target);
}

inline lot_event unfund(Ticket ticket) {
    return lot_unfund(ticket.number);
}

inline lot_event make_thread(lot_name name, std::uint32_t script) {
    return lot_make_thread(name, script);
}

inline lot_event make_funded(std::uint64_t amount, lot_name currency, lot_name name, std::uint32_t script) {
    return lot_make_funded(amount, currency, name, script);
}

inline lot_event list_tickets() {
    return lot_list_tickets();
}

inline lot_event list_currencies() {
    return lot_list_currencies();
}

inline lot_event list_threads() {
    return lot_list_threads();
}

inline lot_event draw(Processor processor, lot_wide number) {
    return lot_draw(processor.number, number);
}

inline lot_event expire(Processor processor) {
    return lot_expire(processor.number);
}

inline lot_event yield(Processor processor, std::uint32_t ticks) {
    return lot_yield(processor.number, ticks);
}

inline lot_event call(Processor processor, std::uint32_t ticks, Port port, std::uint32_t sent) {
    return lot_call(processor.number, ticks, port.number, sent);
}

inline lot_event receive(Processor processor, std::uint32_t ticks, Port port) {
    return lot_receive(processor.number, ticks, port.number);
}

inline lot_event reply_with(Processor processor, std::uint32_t ticks, std::uint32_t sent) {
    return lot_reply_with(processor.number, ticks, sent);
}

inline lot_event lock(Processor processor, std::uint32_t ticks, Mutex mutex) {
    return lot_lock(processor.number, ticks, mutex.number);
}

inline lot_event unlock(Processor processor, std::uint32_t ticks, Mutex mutex, lot_wide number) {
    return lot_unlock(processor.number, ticks, mutex.number, number);
}

inline lot_event exit(Processor processor, std::uint32_t ticks) {
    return lot_exit(processor.number, ticks);
}

inline lot_event serve(Processor processor, std::uint32_t ticks, Port port, std::uint32_t sent) {
    return lot_serve(processor.number, ticks, port.number, sent);
}

inline lot_event set_ticket(Ticket ticket, std::uint64_t amount) {
    return lot_set_ticket(ticket.number, amount);
}

inline lot_event remove_thread(lot_name thread) {
    return lot_remove_thread(thread);
}

inline lot_event sleep(Processor processor, std::uint32_t ticks) {
    return lot_sleep(processor.number, ticks);
}

inline lot_event preempt(Processor processor, std::uint32_t ticks) {
    return lot_preempt(processor.number, ticks);
}

inline lot_event overrun(Processor processor, std::uint32_t late) {
    return lot_overrun(processor.number, late);
}

inline lot_event wake(Thread thread) {
    return lot_wake(thread.number);
}

inline lot_event make_ticket(std::uint64_t amount, Currency currency) {
    return lot_make_ticket_in(amount, currency.number);
}

inline lot_event remove_currency(Currency currency) {
    return lot_remove_currency_numbered(currency.number);
}

inline lot_event fund(Ticket ticket, Currency currency) {
    return lot_fund_currency(ticket.number, currency.number);
}

inline lot_event fund(Ticket ticket, Thread thread) {
    return lot_fund_thread(ticket.number, thread.number);
}

inline lot_event remove_thread(Thread thread) {
    return lot_remove_thread_numbered(thread.number);
}

inline lot_event make_funded(std::uint64_t amount, Currency currency, lot_name name, std::uint32_t script) {
    return lot_make_funded_in(amount, currency.number, name, script);
}

inline lot_event kill(lot_name thread) {
    return lot_kill(thread);
}

inline lot_event kill(Thread thread) {
    return lot_kill_numbered(thread.number);
}

} // namespace lot

#endif
