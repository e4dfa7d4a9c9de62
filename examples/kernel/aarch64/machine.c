// machine.c: the devices of QEMU's `virt` machine, each in a few lines: a UART to print with, a timer with an alarm,
// and the GIC, which brings the alarm to the processor as an interrupt.
#include "kernel.h"

enum { GIC = 0x08000000, GIC_PROCESSOR = 0x08010000, UART = 0x09000000, TIMER_INTERRUPT = 27 };

static volatile uint32_t *device(uintptr_t at) { return (volatile uint32_t *)at; }

void start_machine(void) {
    *device(GIC) = 1;                             // the GIC distributes interrupts,
    *device(GIC + 0x100) = 1u << TIMER_INTERRUPT; // the timer's among them,
    *device(GIC_PROCESSOR + 4) = 0xff;            // to this processor, whatever their priority
    *device(GIC_PROCESSOR) = 1;
}

void put(char c) {
    while ((*device(UART + 0x18) & 1 << 5) != 0) { // its queue is full
    }
    *device(UART) = (uint8_t)c;
}

uint64_t counter(void) {
    uint64_t now;
    __asm__ volatile("isb; mrs %0, cntvct_el0" : "=r"(now));
    return now;
}

void alarm_at(uint64_t when) { __asm__ volatile("msr cntv_cval_el0, %0; msr cntv_ctl_el0, %1" ::"r"(when), "r"(1ul)); }

// It also ends where interrupts are masked, as they are in the kernel.
void wait_for_alarm(void) { __asm__ volatile("isb; wfi"); }

// The timer asks for the next interrupt as soon as its alarm is over, so that must have been moved before.
void end_interrupt(void) { *device(GIC_PROCESSOR + 0x10) = *device(GIC_PROCESSOR + 0xc); }

void mask_interrupts(bool masked) { __asm__ volatile("msr daif, %0" ::"r"((uint64_t)masked << 7) : "memory"); }

// Nothing interrupts the kernel.
uint64_t disturb(bool again) { return again; }

void begin(frame *thread, uint64_t *stack_top, thread_body *body, uint32_t argument, void (*end)(void)) {
    enum { RETURN = 30, ON_SP_EL0 = 4 };
    thread->x[0] = argument;
    thread->x[RETURN] = (uint64_t)end;
    thread->sp = (uint64_t)stack_top;
    thread->pc = (uint64_t)body;
    thread->pstate = ON_SP_EL0;
}

// The kernel itself has faulted.
void fault(uint32_t syndrome, uint32_t at) { panic("fault %x at %x", syndrome, at); }
