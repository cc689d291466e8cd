# The functions of switch.h for x86-64 Linux: the first six arguments are in registers, the others on the stack.

    .text

# rdi: top of the stack, rsi: function, rdx: words, rcx: how many
    .globl switch_call
    .type switch_call, @function
switch_call:
    push %rbp
    mov %rsp, %rbp
    mov %rdi, %rsp
    mov %rsi, %r11
    mov %rdx, %r10
    mov %rcx, %rax
    cmp $6, %rax
    jbe 2f
    test $1, %al                # the stack pointer is a multiple of 16 at a call: an odd number of words needs 8 more
    jz 1f
    sub $8, %rsp
1:  pushq -8(%r10,%rax,8)
    dec %rax
    cmp $6, %rax
    ja 1b
2:  mov 0(%r10), %rdi
    mov 8(%r10), %rsi
    mov 16(%r10), %rdx
    mov 24(%r10), %rcx
    mov 32(%r10), %r8
    mov 40(%r10), %r9
    call *%r11
    mov %rbp, %rsp
    pop %rbp
    ret
    .size switch_call, . - switch_call

# rdi: depth, sil: value
    .globl control_fill
    .type control_fill, @function
control_fill:
    mov %rsp, %rdx
    sub %rdi, %rsp
    mov %rsp, %rax
1:  cmp %rdx, %rax
    jae 2f
    movb %sil, (%rax)
    inc %rax
    jmp 1b
2:  mov %rdx, %rsp
    ret
    .size control_fill, . - control_fill

# rdi: depth, sil: value
    .globl control_touch
    .type control_touch, @function
control_touch:
    mov %rsp, %rdx
    sub %rdi, %rsp
    movb %sil, (%rsp)
    mov %rdx, %rsp
    ret
    .size control_touch, . - control_touch

# rdi: depth
    .globl control_reserve
    .type control_reserve, @function
control_reserve:
    sub %rdi, %rsp
    add %rdi, %rsp
    ret
    .size control_reserve, . - control_reserve

    .section .note.GNU-stack, "", @progbits
