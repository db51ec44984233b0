# The purgatory's start: its own stack, the test, and then the new kernel with the registers that the load set.
        .text
        .globl  purgatory_start
purgatory_start:
        leaq    stack_end(%rip), %rsp
        call    purgatory_same
        testl   %eax, %eax
        jz      stop
        leaq    entry64_regs(%rip), %r15
        movq    0(%r15), %rax
        movq    8(%r15), %rcx
        movq    16(%r15), %rdx
        movq    24(%r15), %rbx
        movq    32(%r15), %rsp
        movq    40(%r15), %rbp
        movq    48(%r15), %rsi
        movq    56(%r15), %rdi
        movq    64(%r15), %r8
        movq    72(%r15), %r9
        movq    80(%r15), %r10
        movq    88(%r15), %r11
        movq    96(%r15), %r12
        movq    104(%r15), %r13
        movq    112(%r15), %r14
        movq    120(%r15), %r15
        # the stack is the new kernel's by now, so nothing is pushed
        jmpq    *entry64_regs+128(%rip)
# another digest: the new kernel is not whole, and nothing can be told
stop:   hlt
        jmp     stop

        .bss
        .balign 16
        .skip   4096
stack_end:
        .section .note.GNU-stack, "", @progbits
