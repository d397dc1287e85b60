# Where each core of the guests begins whose body is `guest` (new guests have start.S): a0 is its number, a1 the count of cores, sp a place near the top of its own stack.
    .globl _start
_start:
    bnez a1, 1f
    li a1, 1                    # Linux gives no count; then this is the only core
1:  call guest
    li a7, 93                   # exit, with the code that guest returned in a0
    ecall
