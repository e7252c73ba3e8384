#define pr_fmt(fmt) KBUILD_MODNAME ": " fmt

#include <linux/err.h>
#include <linux/kmsg_dump.h>
#include <linux/mm.h>
#include <linux/module.h>
#include <linux/of.h>
#include <linux/version.h>
#include "settings.h"

static unsigned long long mem_address;
module_param_hw(mem_address, ullong, other, 0400);
MODULE_PARM_DESC(mem_address, "where the region begins");
static char *mem_name;
module_param(mem_name, charp, 0400);
MODULE_PARM_DESC(mem_name, "name of the kernel's parameter reserve_mem that has the region (6.12)");
static ulong mem_size;
module_param(mem_size, ulong, 0400);
static uint mem_type;
module_param(mem_type, uint, 0400);
MODULE_PARM_DESC(mem_type, "0: write-combined, 1: unbuffered, 2: cached");
static ulong record_size = 4096;
module_param(record_size, ulong, 0400);
static ulong console_size = 4096;
module_param(console_size, ulong, 0400);
static ulong ftrace_size = 4096;
module_param(ftrace_size, ulong, 0400);
static ulong pmsg_size = 4096;
module_param(pmsg_size, ulong, 0400);
static int ecc;
module_param(ecc, int, 0400);
MODULE_PARM_DESC(ecc, "parity bytes of a block; 1 stands for 16");
static int max_reason = -1;
module_param(max_reason, int, 0400);
static int dump_oops = -1;
module_param(dump_oops, int, 0400);
MODULE_PARM_DESC(dump_oops, "0: dump panics alone; max_reason counts more");

static struct platform_device *own;

static int parameter_reason(void)
{
	if (max_reason >= 0)
		return max_reason;
	return dump_oops == 0 ? KMSG_DUMP_PANIC : KMSG_DUMP_OOPS;
}

int settings_make_device(void)
{
	struct ramoops_platform_data data = {};

#if LINUX_VERSION_CODE >= KERNEL_VERSION(6, 12, 0)
	phys_addr_t address, size;

	if (mem_name && reserve_mem_find_by_name(mem_name, &address, &size)) {
		mem_address = address;
		mem_size = size;
	}
#endif
	if (!mem_size)
		return 0;
	data.mem_size = mem_size;
	data.mem_address = mem_address;
	data.mem_type = mem_type;
	data.record_size = record_size;
	data.console_size = console_size;
	data.ftrace_size = ftrace_size;
	data.pmsg_size = pmsg_size;
	data.max_reason = parameter_reason();
	data.flags = RAMOOPS_FLAG_FTRACE_PER_CPU;
	data.ecc_info.ecc_size = ecc == 1 ? 16 : ecc;
	own = platform_device_register_data(NULL, "ramoops", -1, &data, sizeof(data));
	return PTR_ERR_OR_ZERO(own);
}

void settings_drop_device(void)
{
	platform_device_unregister(own);
	own = NULL;
}

static int number(struct device_node *node, const char *name, u32 other, u32 *value)
{
	int err = of_property_read_u32(node, name, value);

	if (err == -EINVAL) {
		*value = other;
		return 0;
	}
	if (!err && *value > INT_MAX)
		err = -EOVERFLOW;
	if (err)
		pr_err("the device tree's %s is no number up to 2147483647\n", name);
	return err;
}

static int read_numbers(struct device_node *node, struct ramoops_platform_data *data)
{
	u32 type = of_property_read_bool(node, "unbuffered");
	u32 reason = of_property_read_bool(node, "no-dump-oops") ? KMSG_DUMP_PANIC : KMSG_DUMP_OOPS;
	u32 record, console, ftrace, pmsg, parity, flags;
	int err;

	err = number(node, "mem-type", type, &type) ?:
	      number(node, "record-size", 0, &record) ?:
	      number(node, "console-size", 0, &console) ?:
	      number(node, "ftrace-size", 0, &ftrace) ?:
	      number(node, "pmsg-size", 0, &pmsg) ?:
	      number(node, "ecc-size", 0, &parity) ?:
	      number(node, "flags", 0, &flags) ?:
	      number(node, "max-reason", reason, &reason);
	if (err)
		return err;
	data->mem_type = type;
	data->record_size = record;
	data->console_size = console;
	data->ftrace_size = ftrace;
	data->pmsg_size = pmsg;
	data->ecc_info.ecc_size = parity;
	data->flags = flags;
	data->max_reason = reason;
	return 0;
}

static int read_tree(struct platform_device *device, struct ramoops_platform_data *data)
{
	struct device_node *node = device->dev.of_node, *parent;
	struct resource *memory = platform_get_resource(device, IORESOURCE_MEM, 0);
	int err;

	if (!memory) {
		pr_err("the device tree's node has no memory\n");
		return -EINVAL;
	}
	data->mem_address = memory->start;
	data->mem_size = resource_size(memory);
	err = read_numbers(node, data);
	if (err)
		return err;
	/* Old Chromebooks have the node elsewhere, and mean a console and pmsg as large as a dump: as ramoops. */
	parent = of_get_parent(node);
	if (!of_node_name_eq(parent, "reserved-memory") && !data->console_size &&
	    !data->ftrace_size && !data->pmsg_size && !data->ecc_info.ecc_size) {
		data->console_size = data->record_size;
		data->pmsg_size = data->record_size;
	}
	of_node_put(parent);
	return 0;
}

int settings_read(struct platform_device *device, struct ramoops_platform_data *data)
{
	const struct ramoops_platform_data *given = dev_get_platdata(&device->dev);
	int err = 0;

	if (given)
		*data = *given;
	else if (device->dev.of_node)
		err = read_tree(device, data);
	else
		err = -EINVAL;
	if (err)
		return err;
	if (!data->mem_size || !(data->record_size || data->console_size || data->ftrace_size ||
				 data->pmsg_size)) {
		pr_err("the memory's size and one of the zones' sizes must not be 0\n");
		return -EINVAL;
	}
	if (data->ecc_info.ecc_size < 0) {
		pr_err("ecc must not be below 0\n");
		return -EINVAL;
	}
	return 0;
}
