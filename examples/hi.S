# Writes `hi` and a line feed, and exits with 0.
    .globl _start
_start:
    lui a1, %hi(greeting)
    addi a1, a1, %lo(greeting)
    li a0, 1                    # the output
    li a2, 3                    # bytes
    li a7, 64                   # write
    ecall
    li a0, 0
    li a7, 93                   # exit
    ecall
greeting:
    .ascii "hi\n\0"
