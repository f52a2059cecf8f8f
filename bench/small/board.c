/* What a C program on the emulated board needs besides newlib: where it begins, and a clock that goes by instructions.

   The board is qemu's mps2-an500, with a Cortex-M7. Run with -icount shift=0 an instruction takes a nanosecond there, whatever it is, and the board's timer
   ticks every 40 of them. */
#include <stdint.h>
#include <time.h>
#include <unistd.h>

#define REGISTER(address) (*(volatile uint32_t *)(address))
/* Access to the float unit: its two fields at 20 and 22, full access. */
#define COPROCESSORS REGISTER(0xE000ED88)
#define TIMER_CONTROL REGISTER(0x40000000)
#define TIMER_VALUE REGISTER(0x40000004)
#define TIMER_RELOAD REGISTER(0x40000008)
#define TICK 40

/* The first address past the memory that programs are loaded into. */
#define MEMORY_END 0x00400000

/* newlib's own beginning. */
void _start(void);

static void begin(void)
{
    COPROCESSORS |= 0xfu << 20;
    __asm__ volatile("dsb\n\tisb");
    TIMER_RELOAD = UINT32_MAX;
    TIMER_VALUE = UINT32_MAX;
    TIMER_CONTROL = 1;
    _start();
}

static void fault(void)
{
    _exit(1);
}

/* The stack's end, the beginning, and what each fault of the processor leads to. */
__attribute__((section(".vectors"), used)) static const uintptr_t vectors[] = {
    MEMORY_END, (uintptr_t)begin, (uintptr_t)fault, (uintptr_t)fault, (uintptr_t)fault, (uintptr_t)fault, (uintptr_t)fault,
};

int clock_gettime(clockid_t clock, struct timespec *now)
{
    uint64_t nanoseconds = (uint64_t)(UINT32_MAX - TIMER_VALUE) * TICK;
    (void)clock;
    now->tv_sec = (time_t)(nanoseconds / 1000000000);
    now->tv_nsec = (long)(nanoseconds % 1000000000);
    return 0;
}
