// The functions of switch.h for 64-bit Arm: the first eight words are in registers, the others on the stack, which is a
// multiple of 16.

    .text

// x0: top of the stack, x1: function, x2: words, x3: how many
    .globl switch_call
    .type switch_call, %function
switch_call:
    stp x29, x30, [sp, #-16]!
    mov x29, sp
    mov x16, x1
    mov x17, x2
    subs x3, x3, #8
    b.ls 2f
    lsl x4, x3, #3
    add x4, x4, #15
    and x4, x4, #-16
    sub x0, x0, x4
1:  sub x3, x3, #1
    add x5, x17, x3, lsl #3
    ldr x5, [x5, #64]
    str x5, [x0, x3, lsl #3]
    cbnz x3, 1b
2:  mov sp, x0
    ldp x0, x1, [x17]
    ldp x2, x3, [x17, #16]
    ldp x4, x5, [x17, #32]
    ldp x6, x7, [x17, #48]
    blr x16
    mov sp, x29
    ldp x29, x30, [sp], #16
    ret
    .size switch_call, . - switch_call

// x0: depth, w1: value
    .globl control_fill
    .type control_fill, %function
control_fill:
    mov x2, sp
    sub x3, x2, x0
1:  cmp x3, x2
    b.hs 2f
    strb w1, [x3], #1
    b 1b
2:  ret
    .size control_fill, . - control_fill

// x0: depth, w1: value
    .globl control_touch
    .type control_touch, %function
control_touch:
    mov x2, sp
    sub x3, x2, x0
    strb w1, [x3]
    ret
    .size control_touch, . - control_touch

// x0: depth
    .globl control_reserve
    .type control_reserve, %function
control_reserve:
    mov x2, sp
    sub x3, x2, x0
    mov sp, x3
    mov sp, x2
    ret
    .size control_reserve, . - control_reserve

    .section .note.GNU-stack, "", %progbits
