# How each of these programs starts: the global pointer, the stack and zeroed data; then `main`, whose result is the status.
# And the environment's calls. sp is set by one instruction, so it is an address of the stack after each.

    .text
    .globl _start
_start:
    .option push
    .option norelax
    la gp, __global_pointer$
    .option pop
    la t0, __stack_top
    mv sp, t0
    la t0, __bss_start
    la t1, _end
1:  bgeu t0, t1, 2f
    sb zero, 0(t0)
    addi t0, t0, 1
    j 1b
2:  call main
    li a7, 93
    ecall

    .section .text.write_bytes, "ax"
    .globl write_bytes
write_bytes:
    li a7, 64
    ecall
    ret

    .section .text.read_bytes, "ax"
    .globl read_bytes
read_bytes:
    li a7, 63
    ecall
    ret
