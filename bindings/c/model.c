// A plain model of a kernel: model.h says what it is. Comments name the definitions, in crates/lot_machine/specs.

#include "model.h"
#include "test_kinds.h"

#include <stdio.h>
#include <string.h>

struct machine machine;
const lot_name *names;

static lot_name good_names[MOST_NAMES], plain_names[MOST_NAMES];

static struct neighbours issued_tickets[MOST_TICKETS + 1], backing_tickets[MOST_TICKETS + 1];
static struct neighbours waiting_threads[MOST_THREADS + 1], owned_mutexes[MOST_MUTEXES + 1];

static const lot_reply *seen; // the kernel's reply

// ---- lists and sets

static void append(struct list *list, struct neighbours *all, uint32_t number) {
    all[number] = (struct neighbours){list->last, 0};
    if (list->last == 0) {
        list->first = number;
    } else {
        all[list->last].behind = number;
    }
    list->last = number;
    list->count++;
}

static void take_out(struct list *list, struct neighbours *all, uint32_t number) {
    struct neighbours it = all[number];
    if (it.before == 0) {
        list->first = it.behind;
    } else {
        all[it.before].behind = it.behind;
    }
    if (it.behind == 0) {
        list->last = it.before;
    } else {
        all[it.behind].before = it.before;
    }
    list->count--;
}

static void add(struct set *set, uint32_t number) {
    set->places[number] = set->count;
    set->members[set->count++] = number;
}

static void drop(struct set *set, uint32_t number) {
    uint32_t place = set->places[number], last = set->members[--set->count];
    set->members[place] = last;
    set->places[last] = place;
}

// The number of one more: the free one left last, or that of a new place (Places.next_place).
static uint32_t next_number(const struct stack *stack, uint32_t new_number) {
    return stack->count != 0 ? stack->numbers[stack->count - 1] : new_number;
}

// Places.placed, in a table with so many places.
static uint32_t give(struct stack *stack, uint32_t *places, uint32_t new_number) {
    uint32_t number = next_number(stack, new_number);
    if (stack->count != 0) {
        stack->count--;
        stack->taken++;
    } else {
        ++*places;
    }
    return number;
}

// State.given_again
static void give_back(struct stack *stack, uint32_t number) {
    if (machine.sizes.reuse != 0) {
        stack->numbers[stack->count++] = number;
    }
}

uint32_t next_issued(uint32_t ticket) {
    return issued_tickets[ticket].behind;
}

uint32_t next_backing(uint32_t ticket) {
    return backing_tickets[ticket].behind;
}

uint32_t next_waiting(uint32_t thread) {
    return waiting_threads[thread].behind;
}

// ---- names

static bool is_letter(uint8_t byte) {
    return byte >= 'a' && byte <= 'z';
}

static bool is_digit(uint8_t byte) {
    return byte >= '0' && byte <= '9';
}

// A byte, the name's place, and up to eleven bytes more, of which the first is no digit.
static lot_name spelled(char first, uint32_t place, const char *more) {
    char text[32];
    int length = snprintf(text, sizeof text, "%c%u%.*s", first, (unsigned)place, (int)(1 + place / 3 % 11), more);
    lot_name name = {length < 16 ? (uint32_t)length : 16, {0}};
    memcpy(name.bytes, text, name.length);
    return name;
}

// Each byte that a plain name may have is a name of its own, or begins one.
static lot_name plain_name(uint32_t place) {
    if (place <= 94 && place % 3 == 1) {
        return (lot_name){1, {(uint8_t)(32 + place)}};
    }
    return spelled((char)(33 + place % 94), place, "/~!A.Z{`@|#");
}

void model_spell(void) {
    good_names[0] = plain_names[0] = lot_name_of("base");
    for (uint32_t place = 1; place < MOST_NAMES; place++) {
        good_names[place] = spelled((char)('a' + place % 26), place, "__-x_y-0z_9");
        plain_names[place] = plain_name(place);
    }
}

// The place that a name has if it is one of the names.
static uint32_t place_meant(const lot_name *name) {
    uint32_t place = name->length == 1 ? name->bytes[0] - 32u : 0;
    for (uint32_t i = 1; i < name->length && is_digit(name->bytes[i]) && place < MOST_NAMES; i++) {
        place = 10 * place + (uint32_t)(name->bytes[i] - '0');
    }
    return place;
}

// The place of a name, or NOTHING, also for no name.
static uint32_t place_of(const lot_name *name) {
    uint32_t place = place_meant(name);
    bool is_it = place < machine.name_count && names[place].length == name->length &&
                 memcmp(names[place].bytes, name->bytes, name->length) == 0;
    return is_it ? place : NOTHING;
}

// Commands.is_name_byte
static bool is_name_byte(uint8_t byte) {
    return is_letter(byte) || is_digit(byte) || byte == '_' || byte == '-';
}

// Commands.is_good_name
static bool is_good_name(const lot_name *name) {
    uint32_t i = 1;
    while (i < name->length && is_name_byte(name->bytes[i])) {
        i++;
    }
    return name->length > 0 && is_letter(name->bytes[0]) && i >= name->length;
}

// Commands.is_plain_name
static bool is_plain_name(const lot_name *name) {
    uint32_t i = 0;
    while (i < name->length && name->bytes[i] > ' ' && name->bytes[i] <= '~') {
        i++;
    }
    return name->length > 0 && i == name->length;
}

// Commands.is_name
static uint32_t status_of_name(const lot_name *name) {
    if (name->length > sizeof name->bytes) {
        return LOT_LONG_NAME;
    }
    bool is_name = machine.sizes.plain_names != 0 ? is_plain_name(name) : is_good_name(name);
    return is_name ? LOT_DONE : LOT_BAD_NAME;
}

// Commands.is_thread_name
static uint32_t status_of_thread_name(const lot_name *name) {
    return name->length == 0 ? LOT_DONE : status_of_name(name);
}

// Commands.target_named
static struct target target_named(const lot_name *name) {
    uint32_t place = place_of(name);
    return place == NOTHING ? (struct target){UNFUNDED, 0} : machine.holders[place];
}

static bool is_taken(const lot_name *name) {
    return target_named(name).kind != UNFUNDED;
}

// ---- what there is

bool is_ticket(uint64_t ticket) {
    return ticket >= 1 && ticket <= machine.ticket_count && machine.tickets[ticket].exists;
}

bool is_currency(uint32_t currency) {
    return currency < machine.currency_count && machine.currencies[currency].exists;
}

bool is_thread(uint32_t thread) {
    return thread >= 1 && thread <= machine.thread_count && machine.threads[thread].exists;
}

static bool is_dead(uint32_t thread) {
    return machine.threads[thread].status == LOT_STATUS_DEAD;
}

// State.is_live_status
static bool is_live(uint32_t thread) {
    return machine.threads[thread].status == LOT_STATUS_READY || machine.threads[thread].status == LOT_STATUS_RUNNING;
}

// ---- lends (Lends, Servers)

// Which lends count: all, or all but those of threads whose calls are queued.
enum lends { ALL_LENDS, UNQUEUED_LENDS };

// The thread that this one lends to by one of these lends, 0 for none.
static uint32_t borrower_by(enum lends lends, uint32_t thread) {
    const struct thread *it = &machine.threads[thread];
    switch (it->status) {
    case LOT_STATUS_SERVED: return it->place;
    case LOT_STATUS_WAITING: return machine.mutexes[it->place].owner;
    case LOT_STATUS_QUEUED: return lends == ALL_LENDS ? machine.ports[it->place].server : 0;
    case LOT_STATUS_READY:
    case LOT_STATUS_RUNNING:
    case LOT_STATUS_RECEIVING:
    case LOT_STATUS_DEAD:
    case LOT_STATUS_ASLEEP: break;
    }
    return 0;
}

uint32_t borrower_of(uint32_t thread) {
    return borrower_by(ALL_LENDS, thread);
}

// Whether a chain of these lends, perhaps empty, leads from one thread to the other; from none it leads nowhere.
static bool lends_lead(enum lends lends, uint32_t from, uint32_t to) {
    while (from != 0 && from != to) {
        from = borrower_by(lends, from);
    }
    return from != 0;
}

// Whether a chain of one lend or more leads from one thread to the other.
static bool lends_on_to(enum lends lends, uint32_t from, uint32_t to) {
    return lends_lead(lends, borrower_by(lends, from), to);
}

static bool is_backed(uint32_t thread) {
    while (thread != 0 && !is_live(thread)) {
        thread = borrower_of(thread);
    }
    return thread != 0;
}

// ---- activity and values (Activity, Value)

// What is known of a currency in the present evaluation. Funding has no cycle, so each is computed once.
static uint64_t evaluation;
static uint64_t amounts_known[MOST_CURRENCIES + 1], values_known[MOST_CURRENCIES + 1];
static uint64_t amounts[MOST_CURRENCIES + 1], values[MOST_CURRENCIES + 1];
static uint64_t thread_values[MOST_THREADS + 1];
static bool is_evaluated; // since the last event

static uint64_t active_amount(uint32_t currency);

// Activity.is_active
static bool is_active(uint32_t ticket) {
    struct target target = machine.tickets[ticket].target;
    switch (target.kind) {
    case UNFUNDED: return false;
    case TO_THREAD: return is_backed(target.number);
    case TO_CURRENCY: return active_amount(target.number) > 0;
    }
    return false;
}

// Activity.active_amount
static uint64_t active_amount(uint32_t currency) {
    if (amounts_known[currency] == evaluation) {
        return amounts[currency];
    }
    uint64_t sum = 0;
    for (uint32_t ticket = machine.currencies[currency].issued.first; ticket != 0; ticket = next_issued(ticket)) {
        sum += is_active(ticket) ? machine.tickets[ticket].amount : 0;
    }
    amounts_known[currency] = evaluation;
    amounts[currency] = sum;
    return sum;
}

static uint64_t currency_value(uint32_t currency);

// Value.ticket_value
static uint64_t ticket_value(uint32_t ticket) {
    const struct ticket *it = &machine.tickets[ticket];
    if (!is_active(ticket)) {
        return 0;
    }
    if (it->issuer == 0) {
        return (uint64_t)it->amount * machine.sizes.unit;
    }
    return (uint64_t)((wide)currency_value(it->issuer) * it->amount / active_amount(it->issuer));
}

// The values of the tickets from this one on that fund the same.
static uint64_t sum_of_backing(const struct list *backing) {
    uint64_t sum = 0;
    for (uint32_t ticket = backing->first; ticket != 0; ticket = next_backing(ticket)) {
        sum += ticket_value(ticket);
    }
    return sum;
}

// Value.currency_value
static uint64_t currency_value(uint32_t currency) {
    if (values_known[currency] != evaluation) {
        values[currency] = sum_of_backing(&machine.currencies[currency].backing);
        values_known[currency] = evaluation;
    }
    return values[currency];
}

// Adds a thread's own value to it, and to each thread that a chain of lends leads to from it. The tickets of a thread
// that isn't backed are inactive, so that it is worth nothing.
static void add_own_value(uint32_t thread) {
    uint64_t own = is_backed(thread) ? sum_of_backing(&machine.threads[thread].backing) : 0;
    while (own != 0 && thread != 0) {
        thread_values[thread] += own;
        thread = borrower_of(thread);
    }
}

// The values of all threads (Value.thread_value), unless they are known.
static void evaluate(void) {
    if (is_evaluated) {
        return;
    }
    is_evaluated = true;
    evaluation++;
    memset(thread_values, 0, (machine.thread_count + 1) * sizeof *thread_values);
    for (uint32_t thread = 1; thread <= machine.thread_count; thread++) {
        add_own_value(thread);
    }
}

// Lottery.weight
static wide weight_of(uint32_t thread) {
    uint32_t compensation = machine.threads[thread].compensation;
    wide value = thread_values[thread];
    if (compensation == 0) {
        return value;
    }
    wide weight = value * machine.sizes.quantum / compensation;
    return weight == 0 && value != 0 ? 1 : weight;
}

// ---- lotteries (Lottery.winner)

static wide wide_of(lot_wide number) {
    return (wide)number.high << 64 | number.low;
}

static lot_wide lot_wide_from(wide number) {
    return (lot_wide){(uint64_t)number, (uint64_t)(number >> 64)};
}

// The winner, or 0 and a total of 0.
struct drawn {
    uint32_t winner;
    wide number, total;
};

static wide weights[MOST_THREADS + 1];

// Whether the model holds this lottery itself: one in so many, and each in which the kernel says that nobody is worth
// anything.
static bool holds_itself(void) {
    bool is_held = machine.lotteries % machine.every == 0 || !seen->has_draw;
    machine.lotteries++;
    machine.held += is_held;
    return is_held;
}

// Weighs the threads that are ready; the others weigh 0. Returns the sum.
static wide weigh(void) {
    wide total = 0;
    for (uint32_t thread = 1; thread <= machine.thread_count; thread++) {
        weights[thread] = machine.threads[thread].status == LOT_STATUS_READY ? weight_of(thread) : 0;
        total += weights[thread];
    }
    return total;
}

// The first thread whose running sum is above the number. A thread that weighs 0 is never the first.
static uint32_t first_above(wide number) {
    uint32_t thread = 1;
    wide sum = weights[1];
    while (sum <= number) {
        sum += weights[++thread];
    }
    return thread;
}

static struct drawn drawn_by_weights(wide number) {
    evaluate();
    wide total = weigh();
    if (total == 0) {
        return (struct drawn){0, 0, 0};
    }
    return (struct drawn){first_above(number % total), number % total, total};
}

// What the kernel says, if that may be: its winner is ready.
static struct drawn drawn_as_seen(wide number) {
    wide total = wide_of(seen->total);
    bool may_be = seen->kind == LOT_REPLY_WINNER && is_thread(seen->thread) &&
                  machine.threads[seen->thread].status == LOT_STATUS_READY && total != 0;
    return may_be ? (struct drawn){seen->thread, number % total, total} : (struct drawn){0, 0, 0};
}

static wide sum_of_waiters(uint32_t mutex) {
    wide total = 0;
    for (uint32_t thread = machine.mutexes[mutex].waiters.first; thread != 0; thread = next_waiting(thread)) {
        total += thread_values[thread];
    }
    return total;
}

// The first waiter whose running sum of values is above the number.
static uint32_t waiter_above(uint32_t mutex, wide number) {
    uint32_t thread = machine.mutexes[mutex].waiters.first;
    wide sum = thread_values[thread];
    while (sum <= number) {
        thread = next_waiting(thread);
        sum += thread_values[thread];
    }
    return thread;
}

// If the waiters are worth nothing, the first one wins, with no lottery.
static struct drawn passed_by_values(uint32_t mutex, wide number) {
    evaluate();
    wide total = sum_of_waiters(mutex);
    if (total == 0) {
        return (struct drawn){machine.mutexes[mutex].waiters.first, 0, 0};
    }
    return (struct drawn){waiter_above(mutex, number % total), number % total, total};
}

// What the kernel says, if that may be: its new owner waits for the mutex, and is the first one if no lottery was held.
static struct drawn passed_as_seen(uint32_t mutex, wide number) {
    struct drawn first = {machine.mutexes[mutex].waiters.first, 0, 0};
    wide total = wide_of(seen->total);
    bool may_be = seen->has_draw && is_thread(seen->other) && total != 0 &&
                  machine.threads[seen->other].status == LOT_STATUS_WAITING &&
                  machine.threads[seen->other].place == mutex;
    return may_be ? (struct drawn){seen->other, number % total, total} : first;
}

static void say_lottery(struct drawn drawn, lot_reply *reply) {
    reply->has_draw = drawn.total != 0;
    reply->number = lot_wide_from(drawn.number);
    reply->total = lot_wide_from(drawn.total);
}

// ---- commands (Commands, Kill); each returns why it is refused, or 0

static bool is_bad_amount(uint64_t amount) {
    return amount == 0 || amount > UINT32_MAX;
}

static bool is_no_script(uint32_t script) {
    return script == 0 || script > machine.sizes.scripts;
}

static bool are_tickets_full(void) {
    return machine.free_tickets.count == 0 && machine.ticket_count >= machine.sizes.tickets;
}

static bool are_threads_full(void) {
    return machine.free_threads.count == 0 && machine.thread_count >= machine.sizes.threads;
}

// Base isn't counted.
static bool are_currencies_full(void) {
    return machine.free_currencies.count == 0 && machine.currency_count > machine.sizes.currencies;
}

// Commands.currency_meant: its number, or NOTHING.
static uint32_t currency_named(const lot_name *name) {
    struct target target = target_named(name);
    return target.kind == TO_CURRENCY ? target.number : NOTHING;
}

static uint32_t currency_numbered(uint32_t currency) {
    return is_currency(currency) ? currency : NOTHING;
}

// Commands.thread_meant: its number, or NOTHING.
static uint32_t thread_named(const lot_name *name) {
    struct target target = target_named(name);
    return target.kind == TO_THREAD ? target.number : NOTHING;
}

static uint32_t thread_numbered(uint32_t thread) {
    return is_thread(thread) ? thread : NOTHING;
}

uint32_t next_ticket(void) {
    return next_number(&machine.free_tickets, machine.ticket_count + 1);
}

static struct list *backing_of(struct target target) {
    return target.kind == TO_THREAD ? &machine.threads[target.number].backing
                                    : &machine.currencies[target.number].backing;
}

static void set_target(uint32_t ticket, struct target target) {
    machine.tickets[ticket].target = target;
    append(backing_of(target), backing_tickets, ticket);
}

static uint32_t new_ticket(uint64_t amount, uint32_t issuer) {
    uint32_t ticket = give(&machine.free_tickets, &machine.ticket_count, machine.ticket_count + 1);
    machine.tickets[ticket] = (struct ticket){true, (uint32_t)amount, issuer, {UNFUNDED, 0}};
    append(&machine.currencies[issuer].issued, issued_tickets, ticket);
    add(&machine.tickets_there, ticket);
    return ticket;
}

// What has the name at this place from now on; of a thread without a name it is NOTHING.
static void hold(uint32_t place, struct target holder) {
    if (place != NOTHING) {
        machine.holders[place] = holder;
    }
}

static uint32_t new_thread(const lot_name *name, uint32_t script) {
    uint32_t thread = give(&machine.free_threads, &machine.thread_count, machine.thread_count + 1);
    uint32_t place = place_of(name);
    machine.threads[thread] =
        (struct thread){.exists = true, .name = place, .script = script, .status = LOT_STATUS_READY};
    hold(place, (struct target){TO_THREAD, thread});
    add(&machine.threads_there, thread);
    return thread;
}

static uint32_t new_currency(const lot_name *name) {
    uint32_t currency = give(&machine.free_currencies, &machine.currency_count, machine.currency_count);
    uint32_t place = place_of(name);
    machine.currencies[currency] = (struct currency){.exists = true, .name = place};
    hold(place, (struct target){TO_CURRENCY, currency});
    add(&machine.currencies_there, currency);
    return currency;
}

static uint32_t make_ticket_of(uint64_t amount, uint32_t currency, lot_reply *reply) {
    if (is_bad_amount(amount)) {
        return LOT_REFUSAL_BAD_AMOUNT;
    }
    if (currency == NOTHING) {
        return LOT_REFUSAL_NO_CURRENCY;
    }
    if (are_tickets_full()) {
        return LOT_REFUSAL_FULL;
    }
    reply->kind = LOT_REPLY_TICKET;
    reply->ticket = new_ticket(amount, currency);
    return 0;
}

static uint32_t make_ticket(const lot_event *event, lot_reply *reply) {
    return make_ticket_of(event->amount, currency_named(&event->currency), reply);
}

static uint32_t make_ticket_in(const lot_event *event, lot_reply *reply) {
    return make_ticket_of(event->amount, currency_numbered(event->object), reply);
}

static uint32_t remove_ticket(const lot_event *event, lot_reply *reply) {
    if (!is_ticket(event->ticket)) {
        return LOT_REFUSAL_NO_TICKET;
    }
    struct ticket *it = &machine.tickets[event->ticket];
    if (it->target.kind != UNFUNDED) {
        return LOT_REFUSAL_FUNDING;
    }
    it->exists = false;
    take_out(&machine.currencies[it->issuer].issued, issued_tickets, (uint32_t)event->ticket);
    drop(&machine.tickets_there, (uint32_t)event->ticket);
    give_back(&machine.free_tickets, (uint32_t)event->ticket);
    reply->kind = LOT_REPLY_DONE;
    return 0;
}

static uint32_t set_ticket(const lot_event *event, lot_reply *reply) {
    if (is_bad_amount(event->amount)) {
        return LOT_REFUSAL_BAD_AMOUNT;
    }
    if (!is_ticket(event->ticket)) {
        return LOT_REFUSAL_NO_TICKET;
    }
    machine.tickets[event->ticket].amount = (uint32_t)event->amount;
    reply->kind = LOT_REPLY_DONE;
    return 0;
}

static uint32_t make_currency(const lot_event *event, lot_reply *reply) {
    if (is_taken(&event->name)) {
        return LOT_REFUSAL_NAME_TAKEN;
    }
    if (are_currencies_full()) {
        return LOT_REFUSAL_FULL;
    }
    reply->kind = LOT_REPLY_CURRENCY;
    reply->currency = new_currency(&event->name);
    return 0;
}

static uint32_t remove_currency_of(uint32_t currency, lot_reply *reply) {
    if (currency == NOTHING) {
        return LOT_REFUSAL_NO_CURRENCY;
    }
    if (currency == 0) {
        return LOT_REFUSAL_BASE_FIXED;
    }
    struct currency *it = &machine.currencies[currency];
    if (it->issued.count != 0 || it->backing.count != 0) {
        return LOT_REFUSAL_IN_USE;
    }
    it->exists = false;
    hold(it->name, (struct target){UNFUNDED, 0});
    drop(&machine.currencies_there, currency);
    give_back(&machine.free_currencies, currency);
    reply->kind = LOT_REPLY_DONE;
    return 0;
}

static uint32_t remove_currency(const lot_event *event, lot_reply *reply) {
    return remove_currency_of(currency_named(&event->currency), reply);
}

static uint32_t remove_currency_numbered(const lot_event *event, lot_reply *reply) {
    return remove_currency_of(currency_numbered(event->object), reply);
}

// The last search that came by a currency.
static uint64_t search, searched[MOST_CURRENCIES + 1];

static bool reaches(uint32_t from, uint32_t to);

static bool funds_towards(uint32_t ticket, uint32_t to) {
    struct target target = machine.tickets[ticket].target;
    return target.kind == TO_CURRENCY && reaches(target.number, to);
}

// Whether one currency is the other, or a chain of tickets leads from it to the other (Funding.reaches_within). What a
// search has come by before leads nowhere.
static bool reaches(uint32_t from, uint32_t to) {
    if (from == to || searched[from] == search) {
        return from == to;
    }
    searched[from] = search;
    uint32_t ticket = machine.currencies[from].issued.first;
    while (ticket != 0 && !funds_towards(ticket, to)) {
        ticket = next_issued(ticket);
    }
    return ticket != 0;
}

// Funding.would_cycle
static bool would_cycle(uint32_t issuer, uint32_t currency) {
    search++;
    return reaches(currency, issuer);
}

// A target of the kind UNFUNDED stands for none.
static uint32_t fund_target(uint64_t ticket, struct target target, lot_reply *reply) {
    if (!is_ticket(ticket)) {
        return LOT_REFUSAL_NO_TICKET;
    }
    if (target.kind == UNFUNDED) {
        return LOT_REFUSAL_NO_TARGET;
    }
    if (target.kind == TO_CURRENCY && target.number == 0) {
        return LOT_REFUSAL_BASE_FIXED;
    }
    if (target.kind == TO_THREAD && is_dead(target.number)) {
        return LOT_REFUSAL_DEAD_THREAD;
    }
    if (machine.tickets[ticket].target.kind != UNFUNDED) {
        return LOT_REFUSAL_FUNDING;
    }
    if (target.kind == TO_CURRENCY && would_cycle(machine.tickets[ticket].issuer, target.number)) {
        return LOT_REFUSAL_CYCLE;
    }
    set_target((uint32_t)ticket, target);
    reply->kind = LOT_REPLY_DONE;
    return 0;
}

static uint32_t fund(const lot_event *event, lot_reply *reply) {
    return fund_target(event->ticket, target_named(&event->name), reply);
}

static uint32_t fund_currency(const lot_event *event, lot_reply *reply) {
    enum target_kind kind = is_currency(event->object) ? TO_CURRENCY : UNFUNDED;
    return fund_target(event->ticket, (struct target){kind, event->object}, reply);
}

static uint32_t fund_thread(const lot_event *event, lot_reply *reply) {
    enum target_kind kind = is_thread(event->object) ? TO_THREAD : UNFUNDED;
    return fund_target(event->ticket, (struct target){kind, event->object}, reply);
}

static uint32_t unfund(const lot_event *event, lot_reply *reply) {
    if (!is_ticket(event->ticket)) {
        return LOT_REFUSAL_NO_TICKET;
    }
    struct ticket *it = &machine.tickets[event->ticket];
    if (it->target.kind == UNFUNDED) {
        return LOT_REFUSAL_NOT_FUNDING;
    }
    take_out(backing_of(it->target), backing_tickets, (uint32_t)event->ticket);
    it->target = (struct target){UNFUNDED, 0};
    reply->kind = LOT_REPLY_DONE;
    return 0;
}

static uint32_t make_thread(const lot_event *event, lot_reply *reply) {
    if (is_taken(&event->name)) {
        return LOT_REFUSAL_NAME_TAKEN;
    }
    if (is_no_script(event->script)) {
        return LOT_REFUSAL_NO_SCRIPT;
    }
    if (are_threads_full()) {
        return LOT_REFUSAL_FULL;
    }
    reply->kind = LOT_REPLY_THREAD;
    reply->thread = new_thread(&event->name, event->script);
    return 0;
}

static uint32_t make_funded_of(const lot_event *event, uint32_t currency, lot_reply *reply) {
    if (is_bad_amount(event->amount)) {
        return LOT_REFUSAL_BAD_AMOUNT;
    }
    if (currency == NOTHING) {
        return LOT_REFUSAL_NO_CURRENCY;
    }
    if (is_taken(&event->name)) {
        return LOT_REFUSAL_NAME_TAKEN;
    }
    if (is_no_script(event->script)) {
        return LOT_REFUSAL_NO_SCRIPT;
    }
    if (are_tickets_full() || are_threads_full()) {
        return LOT_REFUSAL_FULL;
    }
    reply->kind = LOT_REPLY_FUNDED;
    reply->ticket = new_ticket(event->amount, currency);
    reply->thread = new_thread(&event->name, event->script);
    set_target(reply->ticket, (struct target){TO_THREAD, reply->thread});
    return 0;
}

static uint32_t make_funded(const lot_event *event, lot_reply *reply) {
    return make_funded_of(event, currency_named(&event->currency), reply);
}

static uint32_t make_funded_in(const lot_event *event, lot_reply *reply) {
    return make_funded_of(event, currency_numbered(event->object), reply);
}

static uint32_t remove_thread_of(uint32_t thread, lot_reply *reply) {
    if (thread == NOTHING) {
        return LOT_REFUSAL_NO_THREAD;
    }
    if (!is_dead(thread)) {
        return LOT_REFUSAL_ALIVE;
    }
    struct thread *it = &machine.threads[thread];
    if (it->backing.count != 0 || it->clients.count != 0 || it->owned.count != 0) {
        return LOT_REFUSAL_IN_USE;
    }
    it->exists = false;
    hold(it->name, (struct target){UNFUNDED, 0});
    drop(&machine.threads_there, thread);
    drop(&machine.dead_there, thread);
    give_back(&machine.free_threads, thread);
    reply->kind = LOT_REPLY_DONE;
    return 0;
}

static uint32_t remove_thread(const lot_event *event, lot_reply *reply) {
    return remove_thread_of(thread_named(&event->name), reply);
}

static uint32_t remove_thread_numbered(const lot_event *event, lot_reply *reply) {
    return remove_thread_of(thread_numbered(event->object), reply);
}

static void set_owner(uint32_t mutex, uint32_t owner) {
    struct mutex *it = &machine.mutexes[mutex];
    if (it->owner != 0) {
        take_out(&machine.threads[it->owner].owned, owned_mutexes, mutex);
    }
    if (owner != 0) {
        append(&machine.threads[owner].owned, owned_mutexes, mutex);
    }
    it->owner = owner;
}

static void set_status(uint32_t thread, lot_thread_status_kind status, uint32_t place) {
    machine.threads[thread].status = status;
    machine.threads[thread].place = place;
}

// The list in which a thread with this status stands, or NULL.
static struct list *list_of(uint32_t thread) {
    uint32_t place = machine.threads[thread].place;
    switch (machine.threads[thread].status) {
    case LOT_STATUS_RECEIVING: return &machine.ports[place].receivers;
    case LOT_STATUS_QUEUED: return &machine.ports[place].calls;
    case LOT_STATUS_SERVED: return &machine.threads[place].clients;
    case LOT_STATUS_WAITING: return &machine.mutexes[place].waiters;
    case LOT_STATUS_READY:
    case LOT_STATUS_RUNNING:
    case LOT_STATUS_DEAD:
    case LOT_STATUS_ASLEEP: break;
    }
    return NULL;
}

// The thread has taken a call at the port, so it is the port's server.
static void take_over(uint32_t port, uint32_t thread) {
    uint32_t server = machine.ports[port].server;
    if (machine.sizes.queued_lend != 0) {
        machine.servers.changed += server != 0 && server != thread;
        machine.ports[port].server = thread;
    }
}

// The ports that have this server have none. Returns how many.
static uint32_t leave_ports(uint32_t server) {
    uint32_t left = 0;
    for (uint32_t port = 1; port <= machine.sizes.ports; port++) {
        if (machine.ports[port].server == server) {
            machine.ports[port].server = 0;
            left++;
        }
    }
    return left;
}

// A thread that waits is ready; its compensation stays.
static void release(uint32_t thread) {
    take_out(list_of(thread), waiting_threads, thread);
    set_status(thread, LOT_STATUS_READY, 0);
}

static void end(uint32_t thread) {
    set_status(thread, LOT_STATUS_DEAD, 0);
    machine.threads[thread].compensation = 0;
    add(&machine.dead_there, thread);
}

static void release_clients(uint32_t thread) {
    while (machine.threads[thread].clients.first != 0) {
        release(machine.threads[thread].clients.first);
    }
}

// The mutex passes to the one that has waited longest, or is free (Kill.mutex_without).
static void bequeath(uint32_t mutex) {
    uint32_t heir = machine.mutexes[mutex].waiters.first;
    if (heir != 0) {
        release(heir);
    }
    set_owner(mutex, heir);
}

static void bequeath_all(uint32_t thread) {
    while (machine.threads[thread].owned.first != 0) {
        bequeath(machine.threads[thread].owned.first);
    }
}

// Takes a thread from where it waits or runs.
static void leave(uint32_t thread) {
    if (list_of(thread) != NULL) {
        take_out(list_of(thread), waiting_threads, thread);
    }
    if (machine.threads[thread].status == LOT_STATUS_RUNNING) {
        machine.runners[machine.threads[thread].place] = 0;
    }
}

static uint32_t kill_thread_of(uint32_t thread, lot_reply *reply) {
    if (thread == NOTHING) {
        return LOT_REFUSAL_NO_THREAD;
    }
    if (is_dead(thread)) {
        return LOT_REFUSAL_DEAD_THREAD;
    }
    leave(thread);
    end(thread);
    release_clients(thread);
    bequeath_all(thread);
    machine.servers.gone_by_kill += leave_ports(thread);
    reply->kind = LOT_REPLY_DONE;
    return 0;
}

static uint32_t kill_thread(const lot_event *event, lot_reply *reply) {
    return kill_thread_of(thread_named(&event->name), reply);
}

static uint32_t kill_thread_numbered(const lot_event *event, lot_reply *reply) {
    return kill_thread_of(thread_numbered(event->object), reply);
}

static uint32_t list_tickets(const lot_event *event, lot_reply *reply) {
    (void)event;
    reply->kind = LOT_REPLY_LIST_TICKETS;
    return 0;
}

static uint32_t list_currencies(const lot_event *event, lot_reply *reply) {
    (void)event;
    reply->kind = LOT_REPLY_LIST_CURRENCIES;
    return 0;
}

static uint32_t list_threads(const lot_event *event, lot_reply *reply) {
    (void)event;
    reply->kind = LOT_REPLY_LIST_THREADS;
    return 0;
}

// ---- draws, and how a thread leaves its processor without a trap (Step)

static bool is_bad_processor(uint32_t processor) {
    return processor == 0 || processor > machine.sizes.processors;
}

// Why an event that needs a thread on the processor is refused before all else, or 0.
static uint32_t not_running(uint32_t processor) {
    if (is_bad_processor(processor)) {
        return LOT_REFUSAL_BAD_PROCESSOR;
    }
    return machine.runners[processor] == 0 ? LOT_REFUSAL_NOT_RUNNING : 0;
}

// The winner runs, with nothing used, and has what was delivered to it. Quanta and ticks stop at 2 ^ 64 - 1, which no
// run comes to.
static void start(uint32_t thread, uint32_t processor, lot_reply *reply) {
    struct thread *it = &machine.threads[thread];
    reply->kind = LOT_REPLY_WINNER;
    reply->thread = thread;
    reply->goes_on = true;
    reply->has_sent = it->has_delivered;
    reply->sent = it->has_delivered ? it->delivered : 0;
    set_status(thread, LOT_STATUS_RUNNING, processor);
    machine.runners[processor] = thread;
    it->used = it->compensation = 0;
    it->has_delivered = false;
    it->quanta++;
}

static uint32_t draw(const lot_event *event, lot_reply *reply) {
    if (is_bad_processor(event->processor)) {
        return LOT_REFUSAL_BAD_PROCESSOR;
    }
    if (machine.runners[event->processor] != 0) {
        return LOT_REFUSAL_BUSY;
    }
    wide number = wide_of(event->number);
    struct drawn drawn = holds_itself() ? drawn_by_weights(number) : drawn_as_seen(number);
    if (drawn.winner == 0) {
        reply->kind = LOT_REPLY_IDLE;
        return 0;
    }
    say_lottery(drawn, reply);
    start(drawn.winner, event->processor, reply);
    return 0;
}

// The thread on the processor is ready, with this compensation, and has run so many ticks more.
static uint32_t stop(uint32_t processor, uint32_t ticks, uint32_t compensation, lot_reply *reply) {
    uint32_t thread = machine.runners[processor];
    machine.runners[processor] = 0;
    set_status(thread, LOT_STATUS_READY, 0);
    machine.threads[thread].compensation = compensation;
    machine.threads[thread].ticks += ticks;
    reply->kind = LOT_REPLY_EXPIRED;
    reply->thread = thread;
    reply->ticks = ticks;
    return 0;
}

// What the thread on the processor has left of its quantum.
static uint32_t rest_on(uint32_t processor) {
    return machine.sizes.quantum - machine.threads[machine.runners[processor]].used;
}

static uint32_t expire(const lot_event *event, lot_reply *reply) {
    uint32_t reason = not_running(event->processor);
    return reason != 0 ? reason : stop(event->processor, rest_on(event->processor), 0, reply);
}

static uint32_t preempt(const lot_event *event, lot_reply *reply) {
    uint32_t reason = not_running(event->processor);
    if (reason != 0) {
        return reason;
    }
    if (event->ticks > rest_on(event->processor)) {
        return LOT_REFUSAL_BAD_TICKS;
    }
    return stop(event->processor, event->ticks, 0, reply);
}

static uint32_t overrun(const lot_event *event, lot_reply *reply) {
    uint32_t reason = not_running(event->processor), quantum = machine.sizes.quantum;
    if (reason != 0) {
        return reason;
    }
    if (event->ticks > UINT32_MAX - quantum) {
        return LOT_REFUSAL_BAD_TICKS;
    }
    return stop(event->processor, rest_on(event->processor) + event->ticks, quantum + event->ticks, reply);
}

static uint32_t wake(const lot_event *event, lot_reply *reply) {
    if (!is_thread(event->object)) {
        return LOT_REFUSAL_NO_THREAD;
    }
    if (machine.threads[event->object].status != LOT_STATUS_ASLEEP) {
        return LOT_REFUSAL_NOT_ASLEEP;
    }
    set_status(event->object, LOT_STATUS_READY, 0);
    reply->kind = LOT_REPLY_DONE;
    return 0;
}

// ---- traps (Traps, Ports, Mutexes); each returns what becomes of its thread

// The thread goes on, ends, or leaves its processor with a status (Traps.after_trap).
struct after {
    enum { GOES_ON, ENDS, LEAVES } way;
    lot_thread_status_kind status;
    uint32_t place;
};

static struct after goes_on(void) {
    return (struct after){GOES_ON, LOT_STATUS_RUNNING, 0};
}

static struct after leaves(lot_thread_status_kind status, uint32_t place) {
    return (struct after){LEAVES, status, place};
}

static struct after refuse(uint32_t reason, lot_reply *reply) {
    reply->outcome = LOT_OUTCOME_REFUSED;
    reply->reason = reason;
    return goes_on();
}

static bool is_no_port(uint32_t port) {
    return port == 0 || port > machine.sizes.ports;
}

static bool is_no_mutex(uint32_t mutex) {
    return mutex == 0 || mutex > machine.sizes.mutexes;
}

// The thread's wait is over, and it will get this number.
static void deliver(uint32_t thread, uint32_t number) {
    release(thread);
    machine.threads[thread].has_delivered = true;
    machine.threads[thread].delivered = number;
}

static struct after yield(uint32_t thread, const lot_event *event, lot_reply *reply) {
    (void)thread, (void)event;
    reply->outcome = LOT_OUTCOME_YIELDED;
    return leaves(LOT_STATUS_READY, 0);
}

static struct after fall_asleep(uint32_t thread, const lot_event *event, lot_reply *reply) {
    (void)thread, (void)event;
    reply->outcome = LOT_OUTCOME_SLEPT;
    return leaves(LOT_STATUS_ASLEEP, 0);
}

// It keeps its mutexes and its clients, and serves no port (Servers.left_by).
static struct after end_itself(uint32_t thread, const lot_event *event, lot_reply *reply) {
    (void)event;
    machine.servers.gone_by_exit += leave_ports(thread);
    reply->outcome = LOT_OUTCOME_EXITED;
    return (struct after){ENDS, LOT_STATUS_DEAD, 0};
}

// The call waits. If lends lead from the port's server to the caller, the port has none from then on.
static struct after queue_call(uint32_t thread, const lot_event *event, lot_reply *reply) {
    struct port *port = &machine.ports[event->object];
    if (lends_lead(ALL_LENDS, port->server, thread)) {
        port->server = 0;
        machine.servers.gone_by_call++;
    }
    machine.servers.lent_to += port->server != 0;
    machine.threads[thread].sent = event->sent;
    append(&port->calls, waiting_threads, thread);
    reply->outcome = LOT_OUTCOME_QUEUED;
    return leaves(LOT_STATUS_QUEUED, event->object);
}

static struct after call(uint32_t thread, const lot_event *event, lot_reply *reply) {
    if (is_no_port(event->object)) {
        return refuse(LOT_TRAP_REFUSAL_NO_PORT, reply);
    }
    uint32_t server = machine.ports[event->object].receivers.first;
    if (server == 0) {
        return queue_call(thread, event, reply);
    }
    take_over(event->object, server);
    deliver(server, event->sent);
    append(&machine.threads[server].clients, waiting_threads, thread);
    reply->outcome = LOT_OUTCOME_SERVED_BY;
    reply->other = server;
    return leaves(LOT_STATUS_SERVED, server);
}

static struct after receive(uint32_t thread, const lot_event *event, lot_reply *reply) {
    if (is_no_port(event->object)) {
        return refuse(LOT_TRAP_REFUSAL_NO_PORT, reply);
    }
    struct port *port = &machine.ports[event->object];
    uint32_t client = port->calls.first;
    if (client == 0) {
        append(&port->receivers, waiting_threads, thread);
        reply->outcome = LOT_OUTCOME_WAITS;
        return leaves(LOT_STATUS_RECEIVING, event->object);
    }
    take_over(event->object, thread);
    take_out(&port->calls, waiting_threads, client);
    append(&machine.threads[thread].clients, waiting_threads, client);
    set_status(client, LOT_STATUS_SERVED, thread);
    reply->outcome = LOT_OUTCOME_RECEIVED;
    reply->other = client;
    reply->has_sent = true;
    reply->sent = machine.threads[client].sent;
    return goes_on();
}

static struct after reply_with(uint32_t thread, const lot_event *event, lot_reply *reply) {
    uint32_t client = machine.threads[thread].clients.first;
    if (client == 0) {
        return refuse(LOT_TRAP_REFUSAL_NOTHING_TO_REPLY, reply);
    }
    deliver(client, event->sent);
    reply->outcome = LOT_OUTCOME_REPLIED;
    reply->other = client;
    return goes_on();
}

static struct after serve(uint32_t thread, const lot_event *event, lot_reply *reply) {
    uint32_t client = machine.threads[thread].clients.first;
    if (is_no_port(event->object)) {
        return refuse(LOT_TRAP_REFUSAL_NO_PORT, reply);
    }
    if (client == 0) {
        return refuse(LOT_TRAP_REFUSAL_NOTHING_TO_REPLY, reply);
    }
    deliver(client, event->sent);
    struct after after = receive(thread, event, reply);
    reply->replied_to = client;
    reply->outcome = reply->outcome == LOT_OUTCOME_RECEIVED ? LOT_OUTCOME_REPLIED_THEN_RECEIVED
                                                            : LOT_OUTCOME_REPLIED_THEN_WAITS;
    return after;
}

// The ports whose servers' lends lead to the thread have none: its wait would close a cycle through one of them
// (Servers.before_lock). All are found before one of them is taken away.
static void cut_cycle(uint32_t thread) {
    bool leads[MOST_PORTS + 1];
    for (uint32_t port = 1; port <= machine.sizes.ports; port++) {
        leads[port] = lends_lead(ALL_LENDS, machine.ports[port].server, thread);
    }
    for (uint32_t port = 1; port <= machine.sizes.ports; port++) {
        machine.ports[port].server = leads[port] ? 0 : machine.ports[port].server;
        machine.servers.gone_by_lock += leads[port];
    }
}

static struct after lock(uint32_t thread, const lot_event *event, lot_reply *reply) {
    if (is_no_mutex(event->object)) {
        return refuse(LOT_TRAP_REFUSAL_NO_MUTEX, reply);
    }
    uint32_t owner = machine.mutexes[event->object].owner;
    if (owner == thread) {
        return refuse(LOT_TRAP_REFUSAL_ALREADY_OWNER, reply);
    }
    if (owner != 0 && lends_on_to(UNQUEUED_LENDS, owner, thread)) {
        return refuse(LOT_TRAP_REFUSAL_LOCK_CYCLE, reply);
    }
    if (owner == 0) {
        set_owner(event->object, thread);
        reply->outcome = LOT_OUTCOME_LOCKED;
        return goes_on();
    }
    if (lends_on_to(ALL_LENDS, owner, thread)) {
        cut_cycle(thread);
    }
    append(&machine.mutexes[event->object].waiters, waiting_threads, thread);
    reply->outcome = LOT_OUTCOME_WAITS;
    return leaves(LOT_STATUS_WAITING, event->object);
}

// The mutex goes to a waiter by a lottery over what the waiters are worth before.
static struct after pass(const lot_event *event, lot_reply *reply) {
    wide number = wide_of(event->number);
    struct drawn drawn =
        holds_itself() ? passed_by_values(event->object, number) : passed_as_seen(event->object, number);
    say_lottery(drawn, reply);
    release(drawn.winner);
    set_owner(event->object, drawn.winner);
    reply->outcome = LOT_OUTCOME_PASSED;
    reply->other = drawn.winner;
    return leaves(LOT_STATUS_READY, 0);
}

static struct after unlock(uint32_t thread, const lot_event *event, lot_reply *reply) {
    if (is_no_mutex(event->object)) {
        return refuse(LOT_TRAP_REFUSAL_NO_MUTEX, reply);
    }
    if (machine.mutexes[event->object].owner != thread) {
        return refuse(LOT_TRAP_REFUSAL_NOT_OWNER, reply);
    }
    if (machine.mutexes[event->object].waiters.first != 0) {
        return pass(event, reply);
    }
    set_owner(event->object, 0);
    reply->outcome = LOT_OUTCOME_FREED;
    return goes_on();
}

// The thread that made a trap, which has used so much of its quantum now (Traps.after_trap).
static void finish(uint32_t thread, uint32_t used, struct after after) {
    struct thread *it = &machine.threads[thread];
    uint32_t processor = it->place;
    bool is_early = used < machine.sizes.quantum;
    if (after.way == GOES_ON && is_early) {
        it->used = used;
        return;
    }
    machine.runners[processor] = 0;
    it->compensation = after.way == LEAVES && is_early ? used : 0;
    if (after.way == ENDS) {
        end(thread);
    } else if (after.way == LEAVES) {
        set_status(thread, after.status, after.place);
    } else {
        set_status(thread, LOT_STATUS_READY, 0);
    }
}

// Step.trap. A trap that leaves its thread on the processor while the quantum lasts is one after which it goes on.
static uint32_t trap(const lot_event *event, struct after (*act)(uint32_t, const lot_event *, lot_reply *),
                     lot_reply *reply) {
    uint32_t reason = not_running(event->processor);
    if (reason != 0) {
        return reason;
    }
    uint32_t thread = machine.runners[event->processor], quantum = machine.sizes.quantum;
    uint64_t used = (uint64_t)machine.threads[thread].used + event->ticks + 1;
    if (used > quantum) {
        return LOT_REFUSAL_BAD_TICKS;
    }
    struct after after = act(thread, event, reply);
    finish(thread, (uint32_t)used, after);
    machine.threads[thread].ticks += (uint64_t)event->ticks + 1;
    reply->kind = LOT_REPLY_TRAPPED;
    reply->thread = thread;
    reply->ticks = event->ticks + 1;
    reply->ends = after.way == GOES_ON && used >= quantum;
    reply->goes_on = after.way == GOES_ON && used < quantum;
    return 0;
}

// ---- events

// Commands, draws and the like, by their kinds.
static uint32_t (*const others[LAST_KIND + 1])(const lot_event *, lot_reply *) = {
    [LOT_MAKE_TICKET] = make_ticket,
    [LOT_REMOVE_TICKET] = remove_ticket,
    [LOT_MAKE_CURRENCY] = make_currency,
    [LOT_REMOVE_CURRENCY] = remove_currency,
    [LOT_FUND] = fund,
    [LOT_UNFUND] = unfund,
    [LOT_MAKE_THREAD] = make_thread,
    [LOT_MAKE_FUNDED] = make_funded,
    [LOT_LIST_TICKETS] = list_tickets,
    [LOT_LIST_CURRENCIES] = list_currencies,
    [LOT_LIST_THREADS] = list_threads,
    [LOT_DRAW] = draw,
    [LOT_EXPIRE] = expire,
    [LOT_SET_TICKET] = set_ticket,
    [LOT_REMOVE_THREAD] = remove_thread,
    [LOT_PREEMPT] = preempt,
    [LOT_OVERRUN] = overrun,
    [LOT_WAKE] = wake,
    [LOT_MAKE_TICKET_IN] = make_ticket_in,
    [LOT_REMOVE_CURRENCY_NUMBERED] = remove_currency_numbered,
    [LOT_FUND_CURRENCY] = fund_currency,
    [LOT_FUND_THREAD] = fund_thread,
    [LOT_REMOVE_THREAD_NUMBERED] = remove_thread_numbered,
    [LOT_MAKE_FUNDED_IN] = make_funded_in,
    [LOT_KILL] = kill_thread,
    [LOT_KILL_NUMBERED] = kill_thread_numbered,
};

// Traps, by their kinds.
static struct after (*const traps[LAST_KIND + 1])(uint32_t, const lot_event *, lot_reply *) = {
    [LOT_YIELD] = yield,
    [LOT_CALL] = call,
    [LOT_RECEIVE] = receive,
    [LOT_REPLY] = reply_with,
    [LOT_LOCK] = lock,
    [LOT_UNLOCK] = unlock,
    [LOT_EXIT] = end_itself,
    [LOT_SERVE] = serve,
    [LOT_SLEEP] = fall_asleep,
};

// What the fields of an event are worth, before any check of the kernel.
static uint32_t status_of(const lot_event *event) {
    if (event->kind == 0 || event->kind > LAST_KIND) {
        return LOT_BAD_KIND;
    }
    const struct kind *kind = &kinds_of_events[event->kind];
    uint32_t status = kind->currency ? status_of_name(&event->currency) : LOT_DONE;
    if (status != LOT_DONE || !kind->name) {
        return status;
    }
    return kind->makes_thread ? status_of_thread_name(&event->name) : status_of_name(&event->name);
}

uint32_t model_event(const lot_event *event, const lot_reply *kernels, lot_reply *reply) {
    uint32_t status = status_of(event), reason = 0;
    memset(reply, 0, sizeof *reply);
    if (status != LOT_DONE) {
        return status;
    }
    seen = kernels;
    if (traps[event->kind] != NULL) {
        reason = trap(event, traps[event->kind], reply);
    } else {
        reason = others[event->kind](event, reply);
    }
    if (reason != 0) {
        reply->kind = LOT_REPLY_REFUSED;
        reply->reason = reason;
    }
    is_evaluated = false;
    return LOT_DONE;
}

void model_open(const lot_sizes *sizes, uint64_t every) {
    machine.sizes = *sizes;
    machine.every = every;
    machine.ticket_count = machine.thread_count = machine.currency_count = 0;
    machine.tickets_there.count = machine.currencies_there.count = 0;
    machine.threads_there.count = machine.dead_there.count = 0;
    machine.free_tickets.count = machine.free_currencies.count = machine.free_threads.count = 0;
    memset(machine.ports, 0, (sizes->ports + 1) * sizeof *machine.ports);
    memset(machine.mutexes, 0, (sizes->mutexes + 1) * sizeof *machine.mutexes);
    memset(machine.runners, 0, sizeof machine.runners);
    names = sizes->plain_names != 0 ? plain_names : good_names;
    machine.name_count = 2 + 3 * (sizes->threads + sizes->currencies);
    memset(machine.holders, 0, machine.name_count * sizeof *machine.holders);
    new_currency(&names[0]);
    is_evaluated = false;
}

// ---- rows (Rows)

static lot_name name_at(uint32_t place) {
    return place == NOTHING ? (lot_name){0, {0}} : names[place];
}

static lot_name name_of(struct target target) {
    switch (target.kind) {
    case UNFUNDED: break;
    case TO_CURRENCY: return name_at(machine.currencies[target.number].name);
    case TO_THREAD: return name_at(machine.threads[target.number].name);
    }
    return (lot_name){0, {0}};
}

bool model_ticket_row(uint32_t ticket, lot_ticket_row *row) {
    static const uint32_t kinds[] = {
        [UNFUNDED] = LOT_TARGET_NONE, [TO_CURRENCY] = LOT_TARGET_CURRENCY, [TO_THREAD] = LOT_TARGET_THREAD};
    if (!is_ticket(ticket)) {
        return false;
    }
    evaluate();
    const struct ticket *it = &machine.tickets[ticket];
    memset(row, 0, sizeof *row);
    row->value = ticket_value(ticket);
    row->amount = it->amount;
    row->issuer = name_of((struct target){TO_CURRENCY, it->issuer});
    row->target = name_of(it->target);
    row->target_kind = kinds[it->target.kind];
    row->target_number = it->target.number;
    row->has_target = it->target.kind != UNFUNDED;
    row->is_active = is_active(ticket);
    return true;
}

// Base counts as its active amount (Value.node_value).
bool model_currency_row(uint32_t currency, lot_currency_row *row) {
    if (!is_currency(currency)) {
        return false;
    }
    evaluate();
    memset(row, 0, sizeof *row);
    row->active_amount = active_amount(currency);
    row->value = currency == 0 ? active_amount(0) : currency_value(currency);
    row->backing = machine.currencies[currency].backing.count;
    row->issued = machine.currencies[currency].issued.count;
    row->name = name_of((struct target){TO_CURRENCY, currency});
    return true;
}

static lot_thread_status status_row(const struct thread *it) {
    bool runs = it->status == LOT_STATUS_RUNNING;
    return (lot_thread_status){it->status, runs ? it->place : 0, runs ? it->used : 0, runs ? 0 : it->place};
}

bool model_thread_row(uint32_t thread, lot_thread_row *row) {
    if (!is_thread(thread)) {
        return false;
    }
    evaluate();
    const struct thread *it = &machine.threads[thread];
    memset(row, 0, sizeof *row);
    row->weight = lot_wide_from(weight_of(thread));
    row->value = thread_values[thread];
    row->quanta = it->quanta;
    row->ticks = it->ticks;
    row->status = status_row(it);
    row->name = name_of((struct target){TO_THREAD, thread});
    return true;
}
