// Waits until the handler of a timer has set a flag, and exits with status 3. The start is firmware/start.s.
static volatile char ticked __attribute__((section(".shared")));

int main(void)
{
    while (!ticked)
        ;
    return 3;
}
