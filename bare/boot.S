/* How both processors come to C: QEMU enters the first one at `start` in 32-bit mode; the second begins in real mode at 0x8000, where a
 * copy of `second_start` lies. Each turns on paging of the low 4 GiB, long mode, and its own stack. Then the entries of interrupts. */
    .section .note.GNU-stack, "", @progbits

    /* the note by which QEMU finds the 32-bit entry of a 64-bit image (PVH) */
    .section .note.pvh, "a", @note
    .long 4, 4, 18
    .asciz "Xen"
    .long start

    .section .text
    .code32
    .globl start
start:
    cli
    mov $first_stack, %esp
    /* page tables: each of the low 4 GiB at its own address, in pages of 2 MiB; the last GiB, where the devices are, is not cached */
    movl $level3 + 3, level4
    xor %ecx, %ecx
1:  mov %ecx, %eax
    shl $12, %eax
    add $level2 + 3, %eax
    mov %eax, level3(,%ecx,8)
    inc %ecx
    cmp $4, %ecx
    jne 1b
    xor %ecx, %ecx
2:  mov %ecx, %eax
    shl $21, %eax
    or $0x83, %eax
    cmp $3 * 512, %ecx
    jb 3f
    or $0x18, %eax
3:  mov %eax, level2(,%ecx,8)
    inc %ecx
    cmp $4 * 512, %ecx
    jne 2b
    lgdt segments_at
    call long_mode
    ljmp $8, $start_64

    /* turns on paging and long mode; data segments */
long_mode:
    mov $16, %eax
    mov %eax, %ds
    mov %eax, %es
    mov %eax, %ss
    mov %cr4, %eax
    or $0x20, %eax              /* long page table entries */
    mov %eax, %cr4
    mov $level4, %eax
    mov %eax, %cr3
    mov $0xc0000080, %ecx
    rdmsr
    or $0x100, %eax             /* long mode */
    wrmsr
    mov %cr0, %eax
    and $0x9fffffff, %eax       /* caches on */
    or $0x80000020, %eax        /* paging */
    mov %eax, %cr0
    ret

    .code64
start_64:
    mov $first_stack, %rsp
    call first_core
stop:
    hlt
    jmp stop

    .globl second_start, second_end
    .code16
second_start:
    cli
    xor %ax, %ax
    mov %ax, %ds
    lgdtl 0x8000 + (segments_there - second_start)
    mov %cr0, %eax
    or $1, %eax
    mov %eax, %cr0
    ljmpl $24, $second_32
segments_there:
    .word segments_end - segments - 1
    .long segments
second_end:

    .code32
second_32:
    mov $16, %eax
    mov %eax, %ds
    mov %eax, %ss
    mov $second_stack, %esp
    call long_mode
    ljmp $8, $second_64
    .code64
second_64:
    mov $second_stack, %rsp
    call second_core
    jmp stop

    /* An interrupt: on the stack of what it interrupts, with the general registers kept and no others. */
    .macro interrupt name, handler
    .globl \name
\name:
    .irp register, rax, rcx, rdx, rsi, rdi, r8, r9, r10, r11, rbp
    push %\register
    .endr
    mov %rsp, %rbp
    and $-16, %rsp
    cld
    call \handler
    mov %rbp, %rsp
    .irp register, rbp, r11, r10, r9, r8, rdi, rsi, rdx, rcx, rax
    pop %\register
    .endr
    iretq
    .endm
    interrupt timer_entry, on_timer
    interrupt flush_entry, on_flush
    interrupt step_entry, on_step

    .section .data
    .balign 8
segments:
    .quad 0
    .quad 0x00af9b000000ffff    /* 8: 64-bit code */
    .quad 0x00cf93000000ffff    /* 16: data */
    .quad 0x00cf9b000000ffff    /* 24: 32-bit code */
segments_end:
segments_at:
    .word segments_end - segments - 1
    .long segments

    .section .bss
    .balign 4096
level4: .skip 4096
level3: .skip 4096
level2: .skip 4 * 4096
    .skip 32768
first_stack:
    .skip 32768
second_stack:
