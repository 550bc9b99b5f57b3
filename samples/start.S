# Where a sample begins: the count of the arguments stands at sp, their addresses behind it.
    .globl _start
_start:
    .option push
    .option norelax
    la gp, __global_pointer$
    .option pop
    ld a0, 0(sp)
    addi a1, sp, 8
    call main
    li a7, 93
    ecall
