@ The functions of switch.h for Arm, in Thumb that a Cortex-M0 has too: the first four words are in registers, the
@ others on the stack, which is a multiple of 8 at a call.

    .syntax unified
    .text
    .thumb

@ r0: top of the stack, r1: function, r2: words, r3: how many
    .globl switch_call
    .type switch_call, %function
    .thumb_func
switch_call:
    push {r4, r5, r6, r7, lr}
    mov r7, sp
    mov r6, r1
    mov r5, r2
    subs r3, #4
    ble 2f
    lsls r4, r3, #2
    adds r4, #7
    movs r1, #7
    bics r4, r1
    subs r0, r0, r4
1:  subs r3, #1
    lsls r1, r3, #2
    adds r2, r5, r1
    ldr r2, [r2, #16]
    str r2, [r0, r1]
    cmp r3, #0
    bne 1b
2:  mov sp, r0
    ldr r0, [r5, #0]
    ldr r1, [r5, #4]
    ldr r2, [r5, #8]
    ldr r3, [r5, #12]
    blx r6
    mov sp, r7
    pop {r4, r5, r6, r7, pc}
    .size switch_call, . - switch_call

@ r0: depth, r1: value
    .globl control_fill
    .type control_fill, %function
    .thumb_func
control_fill:
    mov r2, sp
    subs r3, r2, r0
1:  cmp r3, r2
    bhs 2f
    strb r1, [r3]
    adds r3, #1
    b 1b
2:  bx lr
    .size control_fill, . - control_fill

@ r0: depth, r1: value
    .globl control_touch
    .type control_touch, %function
    .thumb_func
control_touch:
    mov r2, sp
    subs r3, r2, r0
    strb r1, [r3]
    bx lr
    .size control_touch, . - control_touch

@ r0: depth
    .globl control_reserve
    .type control_reserve, %function
    .thumb_func
control_reserve:
    mov r2, sp
    subs r3, r2, r0
    mov sp, r3
    mov sp, r2
    bx lr
    .size control_reserve, . - control_reserve

    .section .note.GNU-stack, "", %progbits
