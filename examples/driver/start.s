# How the driver starts after a chip's reset, when no register holds anything: the stack, the global pointer, where traps go, and zeroed
# data; then `main`, whose result is the status. And the environment's call for its output.

    .text
    .globl _start
_start:
    la sp, __stack_top
    .option push
    .option norelax
    la gp, __global_pointer$
    .option pop
    la t0, on_trap
    csrw mtvec, t0
    la t0, __bss_start
    la t1, _end
1:  bgeu t0, t1, 2f
    sb zero, 0(t0)
    addi t0, t0, 1
    j 1b
2:  call main
    li a7, 93
    ecall

    .section .text.write_bytes, "ax"
    .globl write_bytes
write_bytes:
    li a7, 64
    ecall
    ret
