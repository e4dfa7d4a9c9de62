// kernel.h: what the files of the kernel know of each other.
#pragma once

#include "lot.h"
#include "machine.h" // of aarch64/ or x86_64/

#define NEVER UINT64_MAX
enum { QUANTUM = 100, THREADS = 16 };
typedef void thread_body(uint32_t argument);

// ---- boot.S

uint64_t resume(frame *thread);
uint32_t trap(uint32_t kind, uint32_t object, uint32_t sent);
_Noreturn void power_off(void);

// ---- machine.c

void start_machine(void);
void put(char c);
uint64_t counter(void);
void alarm_at(uint64_t when);
void wait_for_alarm(void);
void end_interrupt(void);
void mask_interrupts(bool masked);
uint64_t disturb(bool again);
void begin(frame *thread, uint64_t *stack_top, thread_body *body, uint32_t argument, void (*end)(void));

// ---- support.c

void print(const char *format, ...) __attribute__((format(printf, 1, 2)));
#define panic(...) (print("panic: "), print(__VA_ARGS__), print("\n"), power_off())

// ---- threads.c

extern uint32_t ends[3]; // how many quanta ended before, at and after their time

void start_lottery(uint32_t seed);
void make_currency(const char *name, uint32_t base_tickets);
uint32_t spawn(const char *name, uint32_t tickets, const char *currency, thread_body *body, uint32_t argument);
void take_tickets(uint32_t number); // the ones that the thread was made with
void refuse_circles(uint32_t times, const char *one, const char *other);
void run_threads(uint32_t ticks);
uint64_t time_now(void);            // in counts, for threads
uint64_t counts_of(uint32_t number);
lot_thread_row row_of(uint32_t number);
