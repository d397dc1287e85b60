# Jumps to itself until its budget is spent.
    .globl _start
_start:
    j _start
