// boot.S: what C cannot say. How the processor starts, how a thread goes on and stops, and how the machine is switched
// off. The kernel has a stack of its own, and so has each thread. Each exception and each interrupt goes to a third one
// (IST 1): on the stack of a call it would overwrite what the library keeps below the stack pointer.

        .section .note.GNU-stack, ""
        .section .note, "a"
        .long   4, 4, 18                // QEMU reads this, by the protocol PVH: where to enter
        .asciz  "Xen"
        .long   start

// ---- the start: QEMU enters here in protected mode of 32 bits, without pages, interrupts masked, and .bss 0

        .section .text.boot, "ax"
        .globl  start, power_off, trap, resume, stubs
        .code32
start:  mov     $0x620, %eax            // CR4: pages of 8 bytes an entry, and SSE, which the library uses
        mov     %eax, %cr4
        mov     $addresses, %eax
        mov     %eax, %cr3
        mov     $0xc0000080, %ecx       // EFER.LME: 64 bits as soon as there are pages
        mov     $0x100, %eax
        xor     %edx, %edx
        wrmsr
        mov     $0x80000003, %eax       // CR0: pages, and SSE doesn't trap
        mov     %eax, %cr0
        lgdt    segments_at
        ljmp    $8, $start_64
        .code64
start_64:
        mov     $16, %eax
        mov     %eax, %ss
        mov     $kernel_stack_top, %rsp
        call    kernel_main

// ---- void power_off(void): by the firmware's register

power_off:
        mov     $0x604, %edx
        mov     $0x2000, %eax
        outw    %ax, %dx
        hlt

        .data
        .balign 4096
addresses:                              // Each address means itself, up to 4 gigabytes.
        .quad   gigabytes + 3
        .fill   511, 8, 0
gigabytes:
        .quad   0x00000083, 0x40000083, 0x80000083, 0xc0000093 // devices are in the last
        .fill   508, 8, 0

        .globl  segments
segments:                               // none, code, data, and the task's, which has the stack of interrupts
        .quad   0, 0x209a0000000000, 0x920000000000, 0, 0
segments_at:
        .word   39
        .quad   segments

// ---- exceptions: the processor goes on at the stub of their number. Some push a code of the fault, others don't.

        .text
        .balign 16
stubs:
        .set    number, 0
        .rept   34
        .balign 16
        .if     (0x60227d00 >> number) & 1 == 0 || number > 31
        push    $0
        .endif
        push    $number
        jmp     stopped
        .set    number, number + 1
        .endr

// ---- uint32_t trap(uint32_t kind, uint32_t object, uint32_t sent): a thread asks the kernel for something, and
//      gets what was sent to it

trap:   int     $33
        ret

// ---- uint64_t resume(frame *thread): runs a thread until it is interrupted, which is 0, or traps or faults

        .macro  registers op            // all but rax, at their places in the frame
        \op     rdi, 0
        \op     rsi, 8
        \op     rdx, 16
        \op     rbx, 32
        \op     rcx, 40
        \op     rbp, 48
        \op     r8, 56
        \op     r9, 64
        \op     r10, 72
        \op     r11, 80
        \op     r12, 88
        \op     r13, 96
        \op     r14, 104
        \op     r15, 112
        .endm
        .macro  load register, at
        mov     \at(%rax), %\register
        .endm
        .macro  save register, at
        mov     %\register, \at(%rax)
        .endm

resume: push    %rbx
        push    %rbp
        push    %r12
        push    %r13
        push    %r14
        push    %r15
        mov     %rsp, kernel_stack_at
        mov     %rdi, running
        mov     %rdi, %rax
        push    $16
        push    136(%rax)               // sp
        push    128(%rax)               // flags
        push    $8
        push    120(%rax)               // pc
        push    24(%rax)                // rax
        registers load
        pop     %rax
        iretq

stopped:                                // on the stack: number, code of the fault, pc, cs, flags, sp
        push    %rax
        mov     running, %rax
        test    %rax, %rax
        jz      in_kernel
        registers save
        pop     24(%rax)
        pop     %rdx
        pop     %rcx
        pop     120(%rax)
        pop     %rdi
        pop     128(%rax)
        pop     136(%rax)
        movq    $0, running
        shl     $8, %rcx
        lea     (%rdx, %rcx), %rax
        xor     %ecx, %ecx
        cmp     $32, %rdx               // the timer
        cmove   %rcx, %rax
        mov     kernel_stack_at, %rsp
        pop     %r15
        pop     %r14
        pop     %r13
        pop     %r12
        pop     %rbp
        pop     %rbx
        ret

in_kernel:                              // the timer, while the kernel waits or lets it interrupt: it only counts
        cmpq    $32, 8(%rsp)
        jne     kernel_fault
        incq    interrupts
        movabs  $0xfee000b0, %rax
        movl    $0, (%rax)
        pop     %rax
        add     $16, %rsp
        iretq

kernel_fault:
        mov     8(%rsp), %edi
        mov     24(%rsp), %esi
        call    fault

        .bss
        .balign 16
        .globl  interrupt_stack_top, interrupts
kernel_stack_at:
        .skip   8
running:
        .skip   8
interrupts:
        .skip   16
        .skip   4096
interrupt_stack_top:
        .skip   32768
kernel_stack_top:
