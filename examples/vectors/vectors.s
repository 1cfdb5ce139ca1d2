# A table of a vectored trap, a row of jumps that a number picks from, and a loop that waits. The first two count on jumps of four
# bytes, the loop on instructions that stay as wide as they are: link with `zc --fixed .vectors,.picked,.sent,.text.handler`.

    .section .vectors, "ax"
    .balign 64
    .globl vectors
    .option push
    .option norvc
vectors:                        # of a trap with cause n the chip executes what is at vectors + 4*n
    j on_exception
    j on_other
    j on_other
    j on_software
    j on_other
    j on_other
    j on_other
    j on_timer
    j on_other
    j on_other
    j on_other
    j on_external
    .option pop

    .section .picked, "ax"
    .globl pick
pick:                           # executes what is at row + 4*a0
    la t0, row
    slli a0, a0, 2
    add t0, t0, a0
    jr t0
    .option push
    .option norvc
row:
    j 1f
    j 2f
    j 3f
    j 4f
    .option pop
1:  li a0, '1'
    ret
2:  li a0, '2'
    ret
3:  li a0, '3'
    ret
4:  li a0, '4'
    ret

    .section .sent, "ax"
    .globl send
send:                           # writes the low 8 bits of a1 to the pin at a0, the lowest first: one every 102 instructions
    li t0, 8
bit:
    andi t1, a1, 1
    sw t1, 0(a0)
    srli a1, a1, 1
    li t2, 32
wait:
    nop
    addi t2, t2, -1
    bnez t2, wait
    addi t0, t0, -1
    bnez t0, bit
    ret

    .section .text.trap, "ax"
    .globl trap
trap:                           # goes where a trap with cause a0 does
    la t0, vectors
    slli a0, a0, 2
    add t0, t0, a0
    jr t0
