/*
 * The start of bare.c on a 64-bit ARM (QEMU's virt, EL1): FP and SIMD on, since the library's code has SIMD instructions;
 * the MMU on, since that code has unaligned accesses, which fault while all memory is device memory. One table maps the
 * first GiB as device memory and the second, the RAM, as cached memory. Before that .bss is made 0, the table too: not
 * every loader does it, and a reset leaves the run before.
 */
	.section .text.start, "ax"
	.globl start
start:
	mrs x0, cpacr_el1
	orr x0, x0, #(3 << 20)
	msr cpacr_el1, x0
	isb
	ldr x0, =__bss_start
	ldr x1, =_end
1:	cmp x0, x1
	b.hs 2f
	strb wzr, [x0], #1
	b 1b
2:	adrp x1, table
	add x1, x1, :lo12:table
	ldr x0, =0x60000000000401	/* a block at 0: device, never executed */
	str x0, [x1]
	ldr x0, =0x40000705		/* a block at 1 GiB: attribute 1, inner shareable */
	str x0, [x1, #8]
	ldr x0, =0xff00			/* attribute 0: device; 1: write-back */
	msr mair_el1, x0
	ldr x0, =0x200803519		/* 39 bits, pages of 4 KiB, cached walks, no upper half */
	msr tcr_el1, x0
	msr ttbr0_el1, x1
	dsb sy
	tlbi vmalle1
	dsb sy
	isb
	mrs x0, sctlr_el1
	ldr x2, =0x1005			/* MMU and both caches */
	orr x0, x0, x2
	msr sctlr_el1, x0
	isb
	adrp x0, stack_end
	add x0, x0, :lo12:stack_end
	mov sp, x0
	bl bare
3:	wfi
	b 3b

	.bss
	.align 12
table:	.skip 4096
	.skip 16384
stack_end:

	.section .note.GNU-stack, "", @progbits
