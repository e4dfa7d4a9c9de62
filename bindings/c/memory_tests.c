// Tests of what takes memory: each allocation is refused in turn, and none is made after the start. Readers write to
// none of it. The three functions of the heap are defined here, so that they can count and refuse, and take blocks from
// pages whose rights can be taken away.

#define _DEFAULT_SOURCE

#include "lot.h"

#include <stdio.h>
#include <stdlib.h>
#include <sys/mman.h>

static unsigned long asked, refused_at, held;
static uint64_t asked_bytes;
static char nowhere[16];

// Pages that blocks come from, one after the other, if there are any. They are given back all at once.
static struct {
    char *first;
    size_t size, taken;
} pages;

static lot_block block_at(void *at) {
    return (lot_block){.ok = at != NULL, .at = at != NULL ? at : (void *)nowhere};
}

static void *take_from_pages(size_t size) {
    size_t at = pages.taken;
    pages.taken = (at + size + 15) / 16 * 16;
    return pages.taken <= pages.size ? pages.first + at : NULL;
}

lot_block rattle_alloc(size_t size, size_t align) {
    if (++asked == refused_at) {
        return block_at(NULL);
    }
    held++;
    asked_bytes += size;
    return block_at(pages.first != NULL ? take_from_pages(size) : malloc(size != 0 ? size : align));
}

lot_block rattle_realloc(void *at, size_t kept, size_t size, size_t align) {
    asked_bytes += size - kept;
    return block_at(++asked == refused_at ? NULL : realloc(at, size != 0 ? size : align));
}

void rattle_dealloc(void *at) {
    held--;
    if (pages.first == NULL) {
        free(at);
    }
}

static void check(bool holds, int line) {
    if (!holds) {
        printf("line %d: not so\n", line);
        exit(1);
    }
}

#define CHECK(holds) check((holds), __LINE__)

static const lot_sizes SIZES = {.tickets = 8, .currencies = 2, .threads = 8, .ports = 1, .mutexes = 1,
                                .processors = 1, .scripts = 1, .quantum = 100, .unit = 1};

// Refuses each allocation of a new kernel in turn: no kernel is there then, and all memory is given back.
static void new_kernels(const lot_sizes *sizes) {
    lot_kernel kernel = LOT_KERNEL_NONE;
    uint32_t status = LOT_NO_MEMORY;
    unsigned long last = 0;
    while (status == LOT_NO_MEMORY) {
        asked = 0;
        refused_at = ++last;
        status = lot_kernel_new(sizes, &kernel);
        CHECK(status == LOT_DONE || (kernel.at == NULL && held == 0));
    }
    CHECK(status == LOT_DONE && kernel.at != NULL && asked + 1 == last);
    CHECK(lot_kernel_free(&kernel) == LOT_DONE && held == 0);
    printf("ok: a kernel with reuse %u takes %lu blocks, and is not made where one is refused\n",
           (unsigned)sizes->reuse, last - 1);
}

// A kernel with these sizes takes as many bytes as lot_kernel_bytes says, in no more blocks than the header says, and
// gives up none of them before it is freed. Returns the bytes.
static uint64_t takes_what_it_says(const lot_sizes *sizes) {
    lot_kernel kernel = LOT_KERNEL_NONE;
    uint64_t bytes = 0;
    CHECK(lot_kernel_bytes(sizes, &bytes) == LOT_DONE);
    refused_at = asked = 0;
    asked_bytes = 0;
    CHECK(lot_kernel_new(sizes, &kernel) == LOT_DONE);
    CHECK(asked_bytes == bytes && asked <= LOT_KERNEL_BLOCKS && held == asked);
    CHECK(lot_kernel_free(&kernel) == LOT_DONE && held == 0);
    return bytes;
}

// The bytes that a mutex takes.
static uint64_t bytes_of_mutex(lot_sizes sizes) {
    uint64_t none = 0, one = 0;
    sizes.mutexes = 0;
    CHECK(lot_kernel_bytes(&sizes, &none) == LOT_DONE);
    sizes.mutexes = 1;
    CHECK(lot_kernel_bytes(&sizes, &one) == LOT_DONE);
    return one - none;
}

// If queued calls lend, each port takes as much more as a mutex. To give numbers again takes 4 bytes for each ticket,
// currency and thread, and for base. Plain names take nothing.
static void takes_as_much(lot_sizes sizes) {
    sizes.reuse = sizes.plain_names = sizes.queued_lend = 0;
    uint64_t once = takes_what_it_says(&sizes);
    sizes.queued_lend = UINT32_MAX;
    CHECK(takes_what_it_says(&sizes) == once + sizes.ports * bytes_of_mutex(sizes));
    sizes.queued_lend = 0;
    sizes.plain_names = UINT32_MAX;
    CHECK(takes_what_it_says(&sizes) == once);
    sizes.reuse = UINT32_MAX;
    CHECK(takes_what_it_says(&sizes) == once + 4 * (sizes.tickets + sizes.currencies + sizes.threads + UINT64_C(1)));
}

// The smallest sizes, those of lot_sizes_small, some between and the largest; none for sizes out of their bounds.
static void bytes_of_kernels(void) {
    const lot_sizes least = {1, 1, 1, 0, 0, 1, 0, 1, 1, 0, 0, 0}, small = lot_sizes_small();
    const lot_sizes between = {3001, 77, 1023, 5, 19, 7, 256, 1000, 256, 0, 0, 0};
    const lot_sizes largest = {65535, 4096, 4096, 256, 256, 64, 256, 1000, 256, 0, 0, 0};
    lot_sizes bad = small;
    uint64_t bytes = 77;
    bad.threads = 4097;
    CHECK(lot_kernel_bytes(&bad, &bytes) == LOT_BAD_LIMITS && bytes == 77);
    takes_as_much(least);
    takes_as_much(SIZES);
    takes_as_much(small);
    takes_as_much(between);
    takes_as_much(largest);
    puts("ok: a kernel takes as many bytes as it says");
}

// No event and no row takes memory, though all is refused; neither do numbers that are given again.
static void no_more(void) {
    lot_kernel kernel = LOT_KERNEL_NONE;
    lot_sizes sizes = SIZES;
    sizes.reuse = 1;
    lot_event event = lot_make_funded(3, lot_name_of("base"), lot_name_of("a"), 1);
    lot_reply reply;
    lot_thread_row row;
    size_t done;
    refused_at = 0;
    CHECK(lot_kernel_new(&sizes, &kernel) == LOT_DONE);
    unsigned long before = asked;
    CHECK(lot_kernel_event(&kernel, &event, &reply) == LOT_DONE && reply.kind == LOT_REPLY_FUNDED);
    event = lot_draw(1, lot_wide_of(1));
    CHECK(lot_kernel_run(&kernel, &event, 1, &reply, 1, &done) == LOT_DONE && reply.kind == LOT_REPLY_WINNER);
    event = lot_lock(1, 0, 1);
    CHECK(lot_kernel_event(&kernel, &event, &reply) == LOT_DONE && reply.outcome == LOT_OUTCOME_LOCKED);
    CHECK(lot_kernel_thread_row(&kernel, 1, &row) == LOT_DONE && row.value == 3);
    CHECK(lot_kernel_settle(&kernel) == LOT_DONE && lot_kernel_settled_thread_row(&kernel, 1, &row) == LOT_DONE);
    const lot_event again[4] = {lot_make_ticket_in(5, 0), lot_remove_ticket(2), lot_make_ticket_in(5, 0),
                                lot_remove_ticket(2)};
    for (int i = 0; i < 1000; i++) {
        CHECK(lot_kernel_event(&kernel, &again[i % 4], &reply) == LOT_DONE && reply.kind != LOT_REPLY_REFUSED);
    }
    CHECK(asked == before);
    CHECK(lot_kernel_free(&kernel) == LOT_DONE && held == 0);
    puts("ok: nothing takes memory after the start");
}

// Reads each row of a kernel with one thread and its ticket of 7 base by the calls for readers. They have this status.
static void read_settled_rows(const lot_kernel *kernel, uint32_t status) {
    lot_ticket_row ticket = {.value = 7};
    lot_currency_row currency = {.value = 7};
    lot_thread_row thread = {.value = 7};
    CHECK(lot_kernel_settled_ticket_row(kernel, 1, &ticket) == status && ticket.value == 7);
    CHECK(lot_kernel_settled_currency_row(kernel, 0, &currency) == status && currency.value == 7);
    CHECK(lot_kernel_settled_thread_row(kernel, 1, &thread) == status && thread.value == 7);
}

// The kernel and its handle lie in pages that can't be written to while they are read. The last event leaves stale
// values, which a row would recompute.
static void readers_write_nothing(void) {
    pages.size = 1 << 16;
    pages.first = mmap(NULL, pages.size, PROT_READ | PROT_WRITE, MAP_PRIVATE | MAP_ANONYMOUS, -1, 0);
    CHECK(pages.first != MAP_FAILED);
    lot_kernel *kernel = (void *)pages.first;
    pages.taken = 16;
    refused_at = 0;
    *kernel = lot_kernel_none();
    CHECK(lot_kernel_new(&SIZES, kernel) == LOT_DONE);
    const lot_event events[3] = {lot_make_funded(3, lot_name_of("base"), lot_name_of("a"), 1),
                                 lot_draw(1, lot_wide_of(1)), lot_set_ticket(1, 7)};
    lot_reply replies[3];
    size_t done;
    CHECK(lot_kernel_run(kernel, events, 3, replies, 3, &done) == LOT_DONE && done == 3);
    CHECK(mprotect(pages.first, pages.size, PROT_READ) == 0);
    lot_runner runner;
    lot_sizes sizes;
    lot_meter meter;
    uint32_t script, tickets, currencies;
    CHECK(lot_kernel_runner(kernel, 1, &runner) == LOT_DONE && runner.thread == 1 && runner.used == 0);
    CHECK(lot_kernel_script_of(kernel, 1, &script) == LOT_DONE && script == 1);
    CHECK(lot_kernel_script_of(kernel, 2, &script) == LOT_NOT_THERE && script == 1);
    CHECK(lot_kernel_ticket_count(kernel, &tickets) == LOT_DONE && tickets == 1);
    CHECK(lot_kernel_currency_count(kernel, &currencies) == LOT_DONE && currencies == 1);
    CHECK(lot_kernel_limits(kernel, &sizes) == LOT_DONE && sizes.quantum == 100);
    CHECK(lot_kernel_meter(kernel, &meter) == LOT_DONE && meter.ticket_reads > 0);
    read_settled_rows(kernel, LOT_NOT_SETTLED);
    CHECK(mprotect(pages.first, pages.size, PROT_READ | PROT_WRITE) == 0);
    CHECK(lot_kernel_settle(kernel) == LOT_DONE);
    CHECK(mprotect(pages.first, pages.size, PROT_READ) == 0);
    read_settled_rows(kernel, LOT_DONE);
    CHECK(mprotect(pages.first, pages.size, PROT_READ | PROT_WRITE) == 0);
    CHECK(lot_kernel_free(kernel) == LOT_DONE && held == 0);
    CHECK(munmap(pages.first, pages.size) == 0);
    pages.first = NULL;
    puts("ok: readers write neither to the kernel nor to its handle");
}

// A lottery reads the weights where they are: it takes no memory, though all is refused.
static void winners(void) {
    lot_wide weights[40];
    const lot_wide number = lot_wide_of(39);
    lot_drawn drawn = {.place = 77};
    for (size_t i = 0; i < 40; i++) {
        weights[i] = lot_wide_of(1);
    }
    asked = 0;
    refused_at = 1;
    CHECK(lot_winner(weights, 40, &number, &drawn) == LOT_DONE && drawn.place == 39 && asked == 0);
    CHECK(lot_winner(weights, 0, &number, &drawn) == LOT_NO_WINNER && drawn.place == 39 && asked == 0);
    puts("ok: a lottery takes no memory");
}

int main(void) {
    lot_sizes again = SIZES;
    again.reuse = 1;
    new_kernels(&SIZES);
    new_kernels(&again);
    bytes_of_kernels();
    no_more();
    readers_write_nothing();
    winners();
    return 0;
}
