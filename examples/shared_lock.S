# Adds 1 to one word of all cores, under a lock made of lr.w and sc.w, until its budget is spent.
    .globl _start
_start:
    la t0, lock
    li t1, 1
1:  lr.w.aq t2, (t0)
    bnez t2, 1b
    sc.w t2, t1, (t0)
    bnez t2, 1b
    lw t3, 4(t0)
    addi t3, t3, 1
    sw t3, 4(t0)
    fence rw, w
    sw zero, 0(t0)
    j 1b
lock:
    .4byte 0, 0
