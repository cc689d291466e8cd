# The functions of switch.h for RISC-V of 32 bits: the first eight words are in registers, the others on the stack,
# which is a multiple of 16.

    .text

# a0: top of the stack, a1: function, a2: words, a3: how many
    .globl switch_call
    .type switch_call, @function
switch_call:
    addi sp, sp, -16
    sw ra, 12(sp)
    sw s0, 8(sp)
    mv s0, sp
    mv t0, a1
    mv t1, a2
    addi a3, a3, -8
    blez a3, 2f
    slli t2, a3, 2
    addi t2, t2, 15
    andi t2, t2, -16
    sub a0, a0, t2
1:  addi a3, a3, -1
    slli t2, a3, 2
    add t3, t1, t2
    lw t3, 32(t3)
    add t2, a0, t2
    sw t3, 0(t2)
    bnez a3, 1b
2:  mv sp, a0
    lw a0, 0(t1)
    lw a1, 4(t1)
    lw a2, 8(t1)
    lw a3, 12(t1)
    lw a4, 16(t1)
    lw a5, 20(t1)
    lw a6, 24(t1)
    lw a7, 28(t1)
    jalr t0
    mv sp, s0
    lw s0, 8(sp)
    lw ra, 12(sp)
    addi sp, sp, 16
    ret
    .size switch_call, . - switch_call

# a0: depth, a1: value
    .globl control_fill
    .type control_fill, @function
control_fill:
    sub t0, sp, a0
1:  bgeu t0, sp, 2f
    sb a1, 0(t0)
    addi t0, t0, 1
    j 1b
2:  ret
    .size control_fill, . - control_fill

# a0: depth, a1: value
    .globl control_touch
    .type control_touch, @function
control_touch:
    sub t0, sp, a0
    sb a1, 0(t0)
    ret
    .size control_touch, . - control_touch

# a0: depth
    .globl control_reserve
    .type control_reserve, @function
control_reserve:
    sub sp, sp, a0
    add sp, sp, a0
    ret
    .size control_reserve, . - control_reserve

    .section .note.GNU-stack, "", @progbits
