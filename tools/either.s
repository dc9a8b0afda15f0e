# The entries of an archive for x86-64 that holds the library twice, compiled for every processor (NAME.any) and for those with AVX2 (NAME.avx2). bin/archive writes a line
# behind this text for each function of the header: `either NAME` where it reads a table, and else `any NAME`. Which one is entered is asked of the processor once, when the
# program or the shared library is loaded; before that it is the one for every processor. No register but the flags changes between the caller and the function.

# What is kept of the answer: 1 where AVX2 may be used.
        .bss
        .local  has_avx2
        .comm   has_avx2,1,1

# Sets it. The processor has AVX2 (leaf 7, ebx, bit 5), and the system keeps the wide registers (leaf 1, ecx, bits 27 and 28; xcr0, bits 1 and 2).
        .section .text.ask_processor,"ax",@progbits
        .type   ask_processor,@function
        .p2align 4
ask_processor:
        endbr64
        pushq   %rbx
        xorl    %eax, %eax
        cpuid
        cmpl    $7, %eax
        jb      1f
        movl    $1, %eax
        xorl    %ecx, %ecx
        cpuid
        andl    $0x18000000, %ecx
        cmpl    $0x18000000, %ecx
        jne     1f
        xorl    %ecx, %ecx
        xgetbv
        andl    $6, %eax
        cmpl    $6, %eax
        jne     1f
        movl    $7, %eax
        xorl    %ecx, %ecx
        cpuid
        shrl    $5, %ebx
        andl    $1, %ebx
        movb    %bl, has_avx2(%rip)
1:      popq    %rbx
        retq
        .size   ask_processor, . - ask_processor

        .section .init_array,"aw",@init_array
        .p2align 3
        .quad   ask_processor

        .section .note.GNU-stack,"",@progbits

        .macro  entry name
        .hidden \name\().any
        .section .text.\name,"ax",@progbits
        .globl  \name
        .type   \name,@function
        .p2align 4
\name:
        endbr64
        .endm

        .macro  any name
        entry   \name
        jmp     \name\().any
        .size   \name, . - \name
        .endm

        .macro  either name
        .hidden \name\().avx2
        entry   \name
        cmpb    $0, has_avx2(%rip)
        jne     \name\().avx2
        jmp     \name\().any
        .size   \name, . - \name
        .endm

