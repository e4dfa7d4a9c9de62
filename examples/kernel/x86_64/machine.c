// machine.c: the devices of QEMU's `q35` machine, each in a few lines: a serial port to print with, and the processor's
// own timer, which counts down to an interrupt.
#include "kernel.h"

#define APIC 0xfee00000u
enum { SERIAL = 0x3f8, ONCE = 0, AGAIN = 1 << 17, BETWEEN_INTERRUPTS = 20000 };

// The table of exceptions has the stub of each and the stack that it goes to: the first that the task names.
static struct { uint16_t low, code; uint8_t stack, kind; uint16_t middle; uint32_t high, none; } gates[VECTORS];
static struct { uint32_t none; uint64_t by_privilege[4], stacks[7]; uint8_t rest[12]; } __attribute__((packed)) task;
static struct { uint16_t last; uint64_t at; } __attribute__((packed)) gates_at = {sizeof gates - 1, 0};

extern uint8_t stubs[VECTORS][16], interrupt_stack_top[];
extern uint64_t segments[5];
extern volatile uint64_t interrupts;

static void put_port(uint16_t port, uint8_t byte) { __asm__ volatile("outb %0, %1" ::"a"(byte), "Nd"(port)); }

static uint8_t port(uint16_t at) {
    uint8_t byte;
    __asm__ volatile("inb %1, %0" : "=a"(byte) : "Nd"(at));
    return byte;
}

static volatile uint32_t *timer(uint32_t at) { return (volatile uint32_t *)(uintptr_t)(APIC + at); }

void start_machine(void) {
    for (uint32_t vector = 0; vector < VECTORS; vector++) {
        uint64_t at = (uint64_t)stubs[vector];
        gates[vector].low = (uint16_t)at;
        gates[vector].code = 8;
        gates[vector].stack = 1;
        gates[vector].kind = 0x8e;
        gates[vector].middle = (uint16_t)(at >> 16);
    }
    gates_at.at = (uint64_t)gates;
    task.stacks[0] = (uint64_t)interrupt_stack_top;
    segments[3] = 0x890000000000 | (sizeof task - 1) | (uint64_t)&task << 16; // below 16 megabytes
    __asm__ volatile("lidt %0; ltr %w1" ::"m"(gates_at), "r"(24));
    put_port(0x21, 0xff); // the machine's old interrupt controllers stay silent
    put_port(0xa1, 0xff);
    *timer(0xf0) = 0x100 | TIMER_VECTOR;
    *timer(0x320) = ONCE | TIMER_VECTOR;
    *timer(0x3e0) = 0xb; // it counts each nanosecond
}

void put(char c) {
    while ((port(SERIAL + 5) & 1 << 5) == 0) { // its queue is full
    }
    put_port(SERIAL, (uint8_t)c);
}

uint64_t counter(void) {
    uint32_t low, high;
    __asm__ volatile("rdtsc" : "=a"(low), "=d"(high));
    return (uint64_t)high << 32 | low;
}

// An alarm of before may still be asking for its interrupt. Here it is only counted.
void alarm_at(uint64_t when) {
    *timer(0x380) = 0;
    __asm__ volatile("sti; nop; cli" ::: "memory");
    uint64_t at = counter();
    uint64_t left = when > at ? when - at : 1;
    *timer(0x380) = left < UINT32_MAX ? (uint32_t)left : UINT32_MAX;
}

void wait_for_alarm(void) { __asm__ volatile("sti; hlt; cli" ::: "memory"); }

void end_interrupt(void) { *timer(0xb0) = 0; }

void mask_interrupts(bool masked) {
    if (masked) {
        __asm__ volatile("cli" ::: "memory");
    } else {
        __asm__ volatile("sti" ::: "memory");
    }
}

// Lets the timer interrupt the kernel again and again, or ends that. Gives how often it has interrupted the kernel.
uint64_t disturb(bool again) {
    mask_interrupts(!again);
    *timer(0x320) = (again ? AGAIN : ONCE) | TIMER_VECTOR;
    *timer(0x380) = again ? BETWEEN_INTERRUPTS : 0;
    return interrupts;
}

void begin(frame *thread, uint64_t *stack_top, thread_body *body, uint32_t argument, void (*end)(void)) {
    *--stack_top = (uint64_t)end; // where the body returns to
    *thread = (frame){.rdi = argument, .pc = (uint64_t)body, .flags = 1 << 9, .sp = (uint64_t)stack_top};
}

// The kernel itself has faulted.
void fault(uint32_t number, uint32_t at) { panic("fault %x at %x", number, at); }
