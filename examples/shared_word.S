# Adds 1 to one word of all cores, in one step, until its budget is spent.
    .globl _start
_start:
    la t0, word
    li t1, 1
1:  amoadd.w t2, t1, (t0)
    j 1b
word:
    .4byte 0
