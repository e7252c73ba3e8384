/*
 * The start of bare.c: QEMU enters here in 32-bit mode without paging (the PVH entry, which the note names). It maps the
 * first GiB onto itself, switches to 64-bit mode, and turns SSE on: the library's code has SSE2 instructions.
 */
	.section .note.pvh, "a", @note
	.align 4
	.long 4, 4, 18			/* the lengths of name and address; XEN_ELFNOTE_PHYS32_ENTRY */
	.asciz "Xen"
	.long start

	.section .text.start, "ax"
	.code32
	.globl start
start:
	cli
	movl $pdpt + 3, pml4
	movl $pages + 3, pdpt
	movl $pages, %edi
	movl $0x83, %eax		/* present, writable, 2 MiB */
1:	movl %eax, (%edi)
	movl $0, 4(%edi)
	addl $8, %edi
	addl $0x200000, %eax
	cmpl $0x40000000, %eax
	jb 1b
	movl $pml4, %eax
	movl %eax, %cr3
	movl $0x620, %eax		/* PAE, OSFXSR, OSXMMEXCPT */
	movl %eax, %cr4
	movl $0xc0000080, %ecx		/* EFER: long mode */
	rdmsr
	orl $0x100, %eax
	wrmsr
	movl $0x80000023, %eax		/* paging, protected mode, FPU and SSE without traps (no EM) */
	movl %eax, %cr0
	lgdt table
	ljmp $8, $start64

	.code64
start64:
	movl $16, %eax
	movl %eax, %ds
	movl %eax, %es
	movl %eax, %ss
	movq $stack_end, %rsp
	call bare
2:	hlt
	jmp 2b

	.section .rodata
	.align 8
segments:
	.quad 0, 0x00af9a000000ffff, 0x00cf92000000ffff
table:
	.word table - segments - 1
	.long segments

	.bss
	.align 4096
pml4:	.skip 4096
pdpt:	.skip 4096
pages:	.skip 4096
stack:	.skip 16384
stack_end:

	.section .note.GNU-stack, "", @progbits
