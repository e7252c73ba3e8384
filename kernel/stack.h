/* A stack of its own for what writes. A panic can run on 4 KiB (arm64, after an overflow), and a call takes 5. */
#ifndef STACK_H
#define STACK_H

#include <linux/compiler.h>
#include <linux/gfp.h>
#include <linux/mm.h>
#include <linux/sched/task_stack.h>
#include <linux/string.h>
#ifdef CONFIG_X86
#include <asm/asm.h>
#endif

struct lane;
void oopsbox_turn(struct lane *lane);

#define STACK_PAINT 0xa5

/*
 * arm64 tells an overflow by the bit THREAD_SIZE of the stack pointer, which is 0 in each stack: so a stack is the lower
 * half of twice its length. It is painted, to tell later how much of it was ever used.
 */
static inline u8 *stack_take(void)
{
	u8 *stack = (u8 *)__get_free_pages(GFP_KERNEL, get_order(2 * THREAD_SIZE));

	if (stack)
		memset(stack, STACK_PAINT, THREAD_SIZE);
	return stack;
}

static inline void stack_free(u8 *stack)
{
	free_pages((unsigned long)stack, get_order(2 * THREAD_SIZE));
}

/* The most bytes of it that were ever in use. */
static inline size_t stack_used(const u8 *stack)
{
	size_t i = 0;

	while (i < THREAD_SIZE && stack[i] == STACK_PAINT)
		i++;
	return THREAD_SIZE - i;
}

/* Runs oopsbox_turn(lane) on this stack. Interrupts are off. */
static noinline void on_stack(struct lane *lane, u8 *stack)
{
#if defined(CONFIG_X86_64)
	/* As call_on_stack in asm/irq_stack.h, which objtool knows: the old stack pointer lies at the new one's end. */
	register void *tos asm("r11") = stack + THREAD_SIZE - 16;

	asm volatile("movq %%rsp, (%[tos])\n"
		     "movq %[tos], %%rsp\n"
		     "call oopsbox_turn\n"
		     "popq %%rsp\n"
		     : "+r"(tos), "+D"(lane), ASM_CALL_CONSTRAINT
		     : [tos] "r"(tos)
		     : "cc", "rax", "rcx", "rdx", "rsi", "r8", "r9", "r10", "memory");
#elif defined(CONFIG_ARM64) && !defined(CONFIG_CPU_BIG_ENDIAN)
	register void *x0 asm("x0") = lane;

	asm volatile("mov x19, sp\n"
		     "mov sp, %[top]\n"
		     "bl oopsbox_turn\n"
		     "mov sp, x19\n"
		     : "+r"(x0)
		     : [top] "r"(stack + THREAD_SIZE)
		     : "cc", "x1", "x2", "x3", "x4", "x5", "x6", "x7", "x8", "x9", "x10", "x11", "x12", "x13", "x14",
		       "x15", "x16", "x17", "x19", "x30", "memory");
#else
#error "the calls are compiled for x86-64 and for little-endian arm64"
#endif
}

#endif
