/* What bare.c asks of a board, here a 64-bit ARM (QEMU's virt). Another board fills in the same. */
#ifndef BOARD_H
#define BOARD_H

#include <stddef.h>
#include <stdint.h>

/* The region: memory that nothing else uses, at a multiple of 4096. */
enum { BOARD_REGION = 0x4e000000 };

/* Sends a byte over the serial port (a PL011). */
static inline void board_send(uint8_t byte)
{
	*(volatile uint32_t *)(uintptr_t)0x9000000 = byte;
}

static inline void board_stop(void)
{
	for (;;)
		__asm__ volatile("wfi");
}

/* Asks the firmware for a reset: SYSTEM_RESET of PSCI, by hvc on this machine. */
static inline void board_reset(void)
{
	register uint64_t x0 __asm__("x0") = 0x84000009;
	__asm__ volatile("hvc #0" : "+r"(x0) : : "x1", "x2", "x3", "memory");
	board_stop();
}

static inline size_t board_line(void)
{
	uint64_t type;
	__asm__("mrs %0, ctr_el0" : "=r"(type));
	return (size_t)4 << (type >> 16 & 15);
}

/*
 * Makes these stores stay: their cache lines are written back to memory (the point of coherency), where a reset leaves
 * them, before any later store is made. Where the region is mapped uncached, the barrier alone is enough.
 */
static inline void board_keep(volatile uint8_t *at, size_t count)
{
	size_t line = board_line();
	uintptr_t end = (uintptr_t)at + count;
	for (uintptr_t it = (uintptr_t)at & ~(uintptr_t)(line - 1); it < end; it += line)
		__asm__ volatile("dc cvac, %0" : : "r"(it) : "memory");
	__asm__ volatile("dsb sy" : : : "memory");
}

/*
 * Drops what a cache has of these bytes, before they are read the first time: what memory has counts. Both ends are at
 * multiples of a line, so no neighbour's store is dropped.
 */
static inline void board_forget(volatile uint8_t *at, size_t count)
{
	size_t line = board_line();
	for (size_t it = 0; it < count; it += line)
		__asm__ volatile("dc ivac, %0" : : "r"(at + it) : "memory");
	__asm__ volatile("dsb sy" : : : "memory");
}

#endif
