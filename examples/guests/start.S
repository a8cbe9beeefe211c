# Each hart of a guest begins here, with all registers 0 and memory as the image has it.

    .equ    guard, 0x57ac4e4d       # stands at the lower end of each stack

    .section .text.start, "ax"
    .globl _start
_start:
    la      t0, unexpected
    csrw    mtvec, t0
    csrr    a0, mhartid
    lui     t0, %hi(stack_stride)   # a hart has whole pages of stack, and stacks grow downwards
    addi    t0, t0, %lo(stack_stride)
    mul     t1, t0, a0
    la      s0, stacks
    add     s0, s0, t1              # its lower end
    add     sp, s0, t0
    li      s1, guard
    sw      s1, 0(s0)
    call    main                    # main(hart)

# What main returns stops the board, or -2 where the stack grew over its guard.
    lw      t0, 0(s0)
    beq     t0, s1, stop
    li      a0, -2
stop:
    li      t0, 0x10000000
    sw      a0, 8(t0)
rest:
    j       rest

# A trap that the guest made no handler for; mcause, mepc and mtval tell which one.
    .balign 4
unexpected:
    li      a0, -1
    j       stop
