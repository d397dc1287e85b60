# Stores to address 0, which is not mapped, so that it never comes to its exit.
    .globl _start
_start:
    li t0, 7
    sw t0, 0(zero)
    li a7, 93                   # exit
    ecall
