// boot.S: what C cannot say. How the processor starts, how a thread goes on and stops, and how the machine is switched
// off. The kernel has stack pointer SP_EL1; threads have SP_EL0, each with a stack of its own.

// ---- the start: QEMU enters here at exception level 1, with the MMU off, interrupts masked, and .bss 0

        .section .text.boot, "ax"
        .globl  start, power_off, trap, resume
start:
        ldr     x0, =kernel_stack_top
        mov     sp, x0
        ldr     x0, =vectors
        msr     vbar_el1, x0
        mov     x0, #3 << 20            // CPACR_EL1.FPEN: NEON doesn't trap. The library uses it.
        msr     cpacr_el1, x0

        // With the MMU off all memory is device memory, where an unaligned access faults. The library makes some.
        mov     x0, #0xff00             // MAIR_EL1: kind 0 is device memory, kind 1 is cached
        msr     mair_el1, x0
        ldr     x0, =0x803519           // TCR_EL1: addresses of 39 bits, by one table
        msr     tcr_el1, x0
        ldr     x0, =gigabytes
        msr     ttbr0_el1, x0
        isb
        mrs     x0, sctlr_el1
        mov     x1, #0x1005             // SCTLR_EL1: the MMU and the caches
        orr     x0, x0, x1
        msr     sctlr_el1, x0
        isb
        bl      kernel_main

// ---- void power_off(void): by PSCI, which is a call of the firmware that QEMU stands in for

power_off:
        ldr     x0, =0x84000008         // SYSTEM_OFF
        hvc     #0

        .section .rodata
        .balign 4096
gigabytes:                              // Each address means itself. The first gigabyte is devices, the second memory.
        .quad   0x00000000 + (3 << 53) + 0x401
        .quad   0x40000000 + 0x705
        .fill   510, 8, 0

// ---- exceptions: the processor goes on at one of 16 places, by who ran and what happened

        .text
        .balign 2048
vectors:                                // a thread traps or faults: the syndrome says which
        stp     x0, x1, [sp, #-16]!
        mrs     x1, esr_el1
        b       stopped
        .balign 128                     // a thread is interrupted
        stp     x0, x1, [sp, #-16]!
        mov     x1, #0
        b       stopped
        .rept   14                      // the rest isn't meant to happen: a fault of the kernel's own
        .balign 128
        mrs     x0, esr_el1
        mrs     x1, elr_el1
        b       fault
        .endr

// ---- uint32_t trap(uint32_t kind, uint32_t object, uint32_t sent): a thread asks the kernel for something, and
//      gets what was sent to it

trap:   svc     #0
        ret

// ---- uint64_t resume(frame *thread): runs a thread until it is interrupted, which is 0, or traps: the syndrome

        .macro  registers op, at, first, numbers:vararg
        .irp    n, \numbers
        \op     x\n, [\at, #8 * (\n - \first)]
        .endr
        .endm

resume: sub     sp, sp, #96
        registers str, sp, 19, 19, 20, 21, 22, 23, 24, 25, 26, 27, 28, 29, 30
        msr     tpidr_el1, x0           // where `stopped` finds the frame
        ldp     x1, x2, [x0, #248]
        ldr     x3, [x0, #264]
        msr     sp_el0, x1
        msr     elr_el1, x2
        msr     spsr_el1, x3
        registers ldr, x0, 0, 1, 2, 3, 4, 5, 6, 7, 8, 9, 10, 11, 12, 13, 14, 15, 16, 17, 18
        registers ldr, x0, 0, 19, 20, 21, 22, 23, 24, 25, 26, 27, 28, 29, 30, 0
        eret

stopped:                                // what `resume` returns is in x1; the thread's x0 and x1 are on the stack
        mrs     x0, tpidr_el1
        registers str, x0, 0, 2, 3, 4, 5, 6, 7, 8, 9, 10, 11, 12, 13, 14, 15, 16, 17, 18
        registers str, x0, 0, 19, 20, 21, 22, 23, 24, 25, 26, 27, 28, 29, 30
        ldp     x2, x3, [sp], #16
        stp     x2, x3, [x0]
        mrs     x2, sp_el0
        mrs     x3, elr_el1
        stp     x2, x3, [x0, #248]
        mrs     x2, spsr_el1
        str     x2, [x0, #264]
        mov     x0, x1
        registers ldr, sp, 19, 19, 20, 21, 22, 23, 24, 25, 26, 27, 28, 29, 30
        add     sp, sp, #96
        ret

        .bss
        .balign 16
        .skip   32768
kernel_stack_top:
