/* What bare.c asks of a board, here a PC (QEMU's pc). Another board fills in the same. */
#ifndef BOARD_H
#define BOARD_H

#include <stddef.h>
#include <stdint.h>

/* The region: memory that nothing else uses, at a multiple of 4096. */
enum { BOARD_REGION = 0x8000000 };

static inline void out(uint16_t port, uint8_t byte)
{
	__asm__ volatile("outb %0, %1" : : "a"(byte), "Nd"(port));
}

/* Sends a byte over the serial port. */
static inline void board_send(uint8_t byte)
{
	out(0x3f8, byte);
}

static inline void board_stop(void)
{
	for (;;)
		__asm__ volatile("cli; hlt");
}

/* Asks the keyboard's controller for a reset. */
static inline void board_reset(void)
{
	out(0x64, 0xfe);
	board_stop();
}

/* Makes these stores stay: they are in memory, where a reset leaves them, before any later store is made. */
static inline void board_keep(volatile uint8_t *at, size_t count)
{
	for (size_t i = 0; i < count; i++)
		__asm__ volatile("clflush %0" : "+m"(at[i]));
	__asm__ volatile("sfence" : : : "memory");
}

/* Drops what a cache has of these bytes, before they are read the first time. A reset empties this machine's caches. */
static inline void board_forget(volatile uint8_t *at, size_t count)
{
	(void)at;
	(void)count;
}

#endif
