/*
 * platform.c - the machine below a program for a board: its start, text out, its end, and another stack. An M-profile
 * processor is a whole machine (qemu-system-arm, the mps2 boards) and speaks by semihosting; any other runs in qemu's
 * user mode and makes Linux's system calls.
 */
#include <stddef.h>
#include <stdint.h>

#include "platform.h"

int main(void);

/* Runs a function on the stack that ends at `top`. */
void switch_stack(void (*run)(void), uint8_t *top);

#if defined __arm__
__asm__(".text\n.globl switch_stack\n.type switch_stack, %function\n.balign 4\n"
#if defined __thumb__
        ".thumb_func\n"
#endif
        "switch_stack: push {r4, lr}\n mov r4, sp\n mov sp, r1\n blx r0\n mov sp, r4\n pop {r4, pc}\n");
#elif defined __aarch64__
__asm__(".text\n.globl switch_stack\nswitch_stack: stp x19, x30, [sp, #-16]!\n mov x19, sp\n mov sp, x1\n blr x0\n"
        "mov sp, x19\n ldp x19, x30, [sp], #16\n ret\n");
#elif defined __riscv && __riscv_xlen == 32
__asm__(".text\n.globl switch_stack\nswitch_stack: addi sp, sp, -16\n sw ra, 12(sp)\n sw s0, 8(sp)\n mv s0, sp\n"
        "mv sp, a1\n jalr a0\n mv sp, s0\n lw s0, 8(sp)\n lw ra, 12(sp)\n addi sp, sp, 16\n ret\n");
#else
#error "platform.c knows no such processor"
#endif

void run_on(uint8_t *stack, size_t len, void (*run)(void))
{
    switch_stack(run, stack + len - ((uintptr_t)stack + len) % 16);
}

#if defined __ARM_ARCH_PROFILE && __ARM_ARCH_PROFILE == 'M'

enum { SYS_WRITE0 = 0x04, SYS_EXIT = 0x18, APPLICATION_EXIT = 0x20026, RUN_TIME_ERROR = 0x20023 };

static void semihosting(unsigned operation, uintptr_t argument)
{
    register unsigned r0 __asm__("r0") = operation;
    register uintptr_t r1 __asm__("r1") = argument;

    __asm__ volatile("bkpt 0xab" : "+r"(r0) : "r"(r1) : "memory");
}

void put_text(const char *text)
{
    semihosting(SYS_WRITE0, (uintptr_t)text);
}

void quit(int status)
{
    for (;;)
        semihosting(SYS_EXIT, status == 0 ? APPLICATION_EXIT : RUN_TIME_ERROR);
}

#define CONFIGURATION (*(volatile uint32_t *)0xE000ED14)
#define TRAP_UNALIGNED 8u
#define RAM_END 0x20400000u

void reset(void);

void reset(void)
{
#if __ARM_ARCH == 6 /* which has no unaligned access; the machine's processor is an M3 */
    CONFIGURATION |= TRAP_UNALIGNED;
#endif
    quit(main());
}

static void on_fault(void)
{
    put_text("a fault of the processor\n");
    quit(1);
}

/* The stack's end, the start, and the two faults that end a program. */
__attribute__((section(".vectors"), used)) static const uintptr_t vectors[4] = {
    RAM_END, (uintptr_t)reset, (uintptr_t)on_fault, (uintptr_t)on_fault,
};

#else

#if defined __arm__
#define NUMBER "r7"
#define FIRST "r0"
#define SECOND "r1"
#define THIRD "r2"
#define TRAP "svc #0"
#define START "_start: mov r0, sp\n bic r0, r0, #15\n mov sp, r0\n bl begin\n"
enum { SYS_WRITE = 4, SYS_EXIT = 1 };
#elif defined __aarch64__
#define NUMBER "x8"
#define FIRST "x0"
#define SECOND "x1"
#define THIRD "x2"
#define TRAP "svc #0"
#define START "_start: bl begin\n"
enum { SYS_WRITE = 64, SYS_EXIT = 93 };
#else
#define NUMBER "a7"
#define FIRST "a0"
#define SECOND "a1"
#define THIRD "a2"
#define TRAP "ecall"
#define START "_start: call begin\n"
enum { SYS_WRITE = 64, SYS_EXIT = 93 };
#endif

__asm__(".text\n.globl _start\n" START);

static void system_call(long number, long one, long two, long three)
{
    register long n __asm__(NUMBER) = number, a __asm__(FIRST) = one, b __asm__(SECOND) = two, c __asm__(THIRD) = three;

    __asm__ volatile(TRAP : "+r"(a) : "r"(n), "r"(b), "r"(c) : "memory");
}

void put_text(const char *text)
{
    long len = 0;

    while (text[len] != 0)
        len++;
    system_call(SYS_WRITE, 1, (long)text, len);
}

void quit(int status)
{
    for (;;)
        system_call(SYS_EXIT, status, 0, 0);
}

__attribute__((used)) void begin(void)
{
    quit(main());
}

#endif
