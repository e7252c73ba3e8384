/*
 * Counts what an append costs: the kernel's own persistent_ram_write (of ramoops, loaded before) in a zone of its own, or
 * zone_append of oopsbox in its console. In QEMU with -icount shift=0 a nanosecond is an instruction. For
 * tools/kernel-check.
 */
#include <linux/kprobes.h>
#include <linux/ktime.h>
#include <linux/module.h>
#include <linux/pstore_ram.h>

static ulong address;
module_param(address, ulong, 0400);
MODULE_PARM_DESC(address, "of memory for ramoops's zone; 0: oopsbox's console");
static uint size = 65536;
module_param(size, uint, 0400);
static uint parity;
module_param(parity, uint, 0400);
static uint times = 2000;
module_param(times, uint, 0400);

static u8 line[80];

static void *find(const char *name)
{
	struct kprobe probe = {.symbol_name = name};
	void *found;

	if (register_kprobe(&probe))
		return NULL;
	found = probe.addr;
	unregister_kprobe(&probe);
	return found;
}

static int count_ramoops(void)
{
	struct persistent_ram_ecc_info ecc = {.ecc_size = parity};
	struct persistent_ram_zone *(*make)(phys_addr_t, size_t, u32, struct persistent_ram_ecc_info *, unsigned int, u32,
					    char *) = find("persistent_ram_new");
	int (*append)(struct persistent_ram_zone *, const void *, unsigned int) = find("persistent_ram_write");
	struct persistent_ram_zone *zone;
	ktime_t begin;
	uint i;

	if (!make || !append)
		return -ENOENT;
	zone = make(address, size, 0, &ecc, 0, 0, "count");
	if (IS_ERR(zone))
		return PTR_ERR(zone);
	begin = ktime_get();
	for (i = 0; i < times; i++)
		append(zone, line, sizeof(line));
	pr_info("count: ramoops parity %u: %lld a line\n", parity, ktime_to_ns(ktime_sub(ktime_get(), begin)) / times);
	return -ECANCELED;
}

/* The console's zone: the first argument that zone_append has when the kernel's log is written. */
static void *console_zone;

static int keep_zone(struct kprobe *probe, struct pt_regs *regs)
{
	if (!console_zone)
		console_zone = (void *)regs_get_kernel_argument(regs, 0);
	return 0;
}

static int count_oopsbox(void)
{
	struct kprobe probe = {.symbol_name = "zone_append", .pre_handler = keep_zone};
	int (*append)(void *, const u8 *, size_t);
	ktime_t begin;
	uint i;

	if (register_kprobe(&probe))
		return -ENOENT;
	append = (void *)probe.addr;
	pr_emerg("count: a line of the console\n");
	unregister_kprobe(&probe);
	if (!console_zone)
		return -EINVAL;
	begin = ktime_get();
	for (i = 0; i < times; i++)
		append(console_zone, line, sizeof(line));
	pr_info("count: oopsbox parity %u: %lld a line\n", parity, ktime_to_ns(ktime_sub(ktime_get(), begin)) / times);
	return -ECANCELED;
}

static int __init count_init(void)
{
	memset(line, 'x', sizeof(line));
	return address ? count_ramoops() : count_oopsbox();
}
module_init(count_init);
MODULE_LICENSE("GPL");
MODULE_DESCRIPTION("what an append costs");
