// Asks its environment to exit with status 3: call 93, with the status in a0.
__attribute__((noreturn)) void _start(void)
{
    register int status __asm__("a0") = 3;
    register int call __asm__("a7") = 93;
    __asm__ volatile("ecall" : : "r"(status), "r"(call));
    __builtin_unreachable();
}
