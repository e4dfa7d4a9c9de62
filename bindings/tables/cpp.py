"""lot.hpp: the events with a type for each sort of number."""

from .c import function_name
from .table import MADE

# The types, by the names of the fields that have such numbers.
TYPES = {"processor": "Processor", "ticket": "Ticket", "currency#": "Currency", "thread#": "Thread", "port": "Port",
         "mutex": "Mutex"}


def function(row):
    """The function that makes an event. One by number has the name of that by name."""
    types = [TYPES.get(it.name + it.mark) for it in row.parameters]
    parameters = [f"{of or it.field.c_type.replace('uint', 'std::uint')} {it.name}"
                  for it, of in zip(row.parameters, types)]
    given = [it.name + ".number" * bool(of) for it, of in zip(row.parameters, types)]
    name = function_name(row.named).removeprefix("lot_")
    return f"""inline lot_event {name}({", ".join(parameters)}) {{
    return {function_name(row)}({", ".join(given)});
}}
"""


def header(rows):
    """The header."""
    sorts = "\n".join(f"using {it} = Number<struct {it}Sort>;" for it in TYPES.values())
    functions = "\n".join(function(row) for row in rows["event_number"])
    return f"""\
// lot.hpp: the events of lot.h, with a type for each sort of number, so that swapped handles don't compile. For C++11
// and later. It is a header alone, and needs the same archive. Ticks and amounts are plain numbers.
// {MADE}
//
//     const lot::Thread thread = lot::thread_of(reply);
//     kernel.event(lot::fund(lot::ticket_of(reply), thread)); // and no lot::fund(thread, ..)
//
// A function has the name of that of lot.h without `lot_`, and without what says that it takes a number: lot::fund is
// lot_fund, lot_fund_currency and lot_fund_thread, whichever takes what is given. lot.h says what each does. Some have
// names of the system's calls, as lot::exit and lot::kill: so write `lot::` before them.

#ifndef LOT_HPP
#define LOT_HPP

#include "lot.h"

#include <cstdint>

namespace lot {{

// A number of one sort. Nothing becomes one except by this constructor, and its `number` alone is a plain one.
template <typename Sort> struct Number {{
    std::uint32_t number;

    constexpr explicit Number(std::uint32_t of) : number(of) {{}}

    constexpr bool operator==(Number other) const {{
        return number == other.number;
    }}

    constexpr bool operator!=(Number other) const {{
        return number != other.number;
    }}
}};

{sorts}

constexpr Currency base(0);

// The numbers that a reply has. Its kind says which.
inline Ticket ticket_of(const lot_reply &reply) {{
    return Ticket(reply.ticket);
}}

inline Currency currency_of(const lot_reply &reply) {{
    return Currency(reply.currency);
}}

inline Thread thread_of(const lot_reply &reply) {{
    return Thread(reply.thread);
}}

{functions}
}} // namespace lot

#endif
"""
