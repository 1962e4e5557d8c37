/* How the two processors come to C. QEMU starts the first in 32-bit mode without pages, at the address in the note below
 * (PVH); the first starts the second, in real mode, at a copy of `second_start`. Both go on in 64-bit mode with all addresses
 * below 8 GiB at themselves. */

#define TRAMPOLINE 0x8000
#define PAGES 4096                      /* pages of 2 MiB: 8 GiB */

        .section .note.pvh, "a", @note
        .balign 4
        .long 4, 8, 18                  /* sizes of name and value; XEN_ELFNOTE_PHYS32_ENTRY */
        .asciz "Xen"
        .quad start

        .text
        .code32
        .globl start
start:
        cli
        cld
        movl $stack_end, %esp

        /* Directories of pages of 2 MiB; those of the fourth GiB, where devices are, are not cached. */
        movl $directories, %edi
        xorl %ecx, %ecx
fill:   movl %ecx, %eax
        shll $21, %eax                  /* the low half of the page's address */
        orl $0x83, %eax
        movl %ecx, %edx
        shrl $11, %edx                  /* the high half */
        cmpl $1536, %ecx
        jb cached
        cmpl $2048, %ecx
        jae cached
        orl $0x18, %eax
cached: movl %eax, (%edi,%ecx,8)
        movl %edx, 4(%edi,%ecx,8)
        incl %ecx
        cmpl $PAGES, %ecx
        jb fill

        /* Above them 8 entries for a GiB each, and one for all. */
        movl $third, %edi
        movl $directories + 3, %eax
        xorl %ecx, %ecx
above:  movl %eax, (%edi,%ecx,8)
        addl $4096, %eax
        incl %ecx
        cmpl $8, %ecx
        jb above
        movl $third + 3, fourth

        lgdt table_of_segments
        call long_mode
        ljmp $8, $first_long

/* Turns on 64-bit mode with the pages at `fourth`, and the registers of SSE, which the library moves memory by. */
long_mode:
        movl %cr4, %eax
        orl $0x620, %eax
        movl %eax, %cr4
        movl $fourth, %eax
        movl %eax, %cr3
        movl $0xc0000080, %ecx
        rdmsr
        orl $0x100, %eax
        wrmsr
        movl %cr0, %eax
        andl $0xfffffffb, %eax
        orl $0x80000003, %eax
        movl %eax, %cr0
        ret

        .code64
first_long:
        movw $16, %ax
        movw %ax, %ds
        movw %ax, %es
        movw %ax, %ss
        movq $stack_end, %rsp
        call machine_main
stop:   hlt
        jmp stop

second_long:
        movw $16, %ax
        movw %ax, %ds
        movw %ax, %es
        movw %ax, %ss
        movq $second_stack_end, %rsp
        call second_main
        jmp stop

        /* What the second processor runs first, at TRAMPOLINE. */
        .code16
        .globl second_start, second_start_end
second_start:
        cli
        xorw %ax, %ax
        movw %ax, %ds
        lgdtl TRAMPOLINE + (trampoline_segments - second_start)
        movl %cr0, %eax
        orl $1, %eax
        movl %eax, %cr0
        ljmpl $24, $TRAMPOLINE + (second_protected - second_start)
        .code32
second_protected:
        movw $32, %ax
        movw %ax, %ds
        movw %ax, %ss
        movl $second_stack_end, %esp
        movl $long_mode, %eax
        call *%eax
        ljmp $8, $second_long
        .balign 8
trampoline_segments:
        .word 5 * 8 - 1
        .long segments
second_start_end:

        .code64
/* One entry for each vector: it pushes the vector and goes on in `arrived`. Of an exception with an error code that code is
 * left on the stack: none of them returns. */
        .globl vector_entries
        .balign 16
vector_entries:
        .set vector, 0
        .rept 256
        .balign 16
        pushq $vector
        jmp arrived
        .set vector, vector + 1
        .endr

arrived:
        pushq %rax
        pushq %rcx
        pushq %rdx
        pushq %rsi
        pushq %rdi
        pushq %r8
        pushq %r9
        pushq %r10
        pushq %r11
        movq 72(%rsp), %rdi
        movq 80(%rsp), %rsi
        cld
        call vector_arrived
        popq %r11
        popq %r10
        popq %r9
        popq %r8
        popq %rdi
        popq %rsi
        popq %rdx
        popq %rcx
        popq %rax
        addq $8, %rsp
        iretq

        .section .rodata
        .balign 8
segments:
        .quad 0
        .quad 0x00209a0000000000        /* 8: code of 64 bits */
        .quad 0x0000920000000000        /* 16: data */
        .quad 0x00cf9a000000ffff        /* 24: code of 32 bits */
        .quad 0x00cf92000000ffff        /* 32: data of 32 bits */
table_of_segments:
        .word 5 * 8 - 1
        .long segments

        .bss
        .balign 4096
fourth: .skip 4096
third:  .skip 4096
directories: .skip 8 * 4096
        .skip 262144
stack_end:
        .skip 16384
second_stack_end:

        .section .note.GNU-stack, "", @progbits
