# What stands in the flash of QEMU's riscv32 board `virt`, from 0x20000000 on, where the board starts: this stub, and behind
# it both parts of an image that zcld linked for code in flash and data in RAM. The stub copies the data to RAM, sets sp, and
# goes to the image's entry. It isn't part of the link: zcld neither reads it nor promises anything of it.
#
# ENTRY, DATA and STACK come from ./build, and code.bin and data.bin from the image.

    .equ SERIAL, 0x10000000     # a byte that is stored here is printed
    .equ TEST, 0x00100000       # a word that is stored here ends QEMU

    .text
    .globl boot
boot:
    la t0, environment
    csrw mtvec, t0
    la t0, data
    la t1, data_end
    li t2, DATA
1:  bgeu t0, t1, 2f
    lw t3, 0(t0)
    sw t3, 0(t2)
    addi t0, t0, 4
    addi t2, t2, 4
    j 1b
2:  li sp, STACK
    li t0, ENTRY
    jr t0

# The program's environment calls come here: 64 writes, 93 exits, and all others give 0. Registers stay as they are, but for
# a0, and so does memory, but for the bytes below sp.
    .balign 4
environment:
    addi sp, sp, -16
    sw t0, 0(sp)
    sw t1, 4(sp)
    sw t2, 8(sp)
    sw t3, 12(sp)
    csrr t0, mepc
    addi t0, t0, 4
    csrw mepc, t0
    li t0, 93
    beq a7, t0, exit
    li a0, 0
    li t0, 64
    bne a7, t0, back
    mv a0, a2
    mv t1, a1
    add t2, a1, a2
    li t3, SERIAL
1:  bgeu t1, t2, back
    lbu t0, 0(t1)
    sb t0, 0(t3)
    addi t1, t1, 1
    j 1b
back:
    lw t0, 0(sp)
    lw t1, 4(sp)
    lw t2, 8(sp)
    lw t3, 12(sp)
    addi sp, sp, 16
    mret
exit:
    li t0, TEST
    li t1, 0x5555
    andi a0, a0, 255
    beqz a0, 1f
    slli a0, a0, 16
    li t1, 0x3333
    or t1, t1, a0
1:  sw t1, 0(t0)
    j 1b

# zcld's code, from the address of --text on, and the bytes that data begin with
    .org 0x1000
    .incbin "code.bin"
    .balign 4
data:
    .incbin "data.bin"
    .balign 4
data_end:
