/* How a C program begins on an emulated Cortex-M: the vectors, memory made ready, main. Files and exit go through the emulator (semihosting, newlib's
 * librdimon). A fault ends the program with status 1, so that no test waits for ever. */
#include <stdint.h>
#include <stdlib.h>
#include <string.h>

extern char data_from[], data_begin[], data_end[], bss_begin[], bss_end[], stack_top[];

int main(void);
void initialise_monitor_handles(void);
void _exit(int status);
void _fini(void);
void reset(void);

void reset(void) {
#if defined(__ARM_FP)
    *(volatile uint32_t *)0xE000ED88 |= UINT32_C(0xF) << 20; /* The floating-point unit is off after a reset. */
#endif
    memcpy(data_begin, data_from, (size_t)(data_end - data_begin));
    memset(bss_begin, 0, (size_t)(bss_end - bss_begin));
    initialise_monitor_handles();
    exit(main());
}

/* newlib's exit calls it. */
void _fini(void) {
}

static void fault(void) {
    _exit(1);
}

/* The stack, reset, and the faults; nothing else interrupts. */
__attribute__((section(".vectors"), used)) static const struct {
    void *stack;
    void (*handlers[15])(void);
} vectors = {stack_top, {reset, fault, fault, fault, fault, fault}};
