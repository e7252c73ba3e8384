/*
 * A back end of pstore in ramoops's place: its parameters, its device tree, its format, its names, on
 * the calls of oopsbox.
 */
#define pr_fmt(fmt) KBUILD_MODNAME ": " fmt

#include <linux/io.h>
#include <linux/kmsg_dump.h>
#include <linux/module.h>
#include <linux/of.h>
#include <linux/platform_device.h>
#include <linux/pstore.h>
#include <linux/pstore_ram.h>
#include <linux/slab.h>
#include <linux/smp.h>
#include <linux/uaccess.h>
#include <linux/version.h>
#include <linux/vmalloc.h>
#include "front.h"
#include "settings.h"
#include "zone.h"

/* From here on the kernel has pmsg before the ftrace zones. 6.1 has not, and 6.12 has. */
#define PMSG_FIRST (LINUX_VERSION_CODE >= KERNEL_VERSION(6, 2, 0))

/* From here on pstore frees a record's bytes by kvfree, and before by kfree. */
#define FREES_ANY_BYTES (LINUX_VERSION_CODE >= KERNEL_VERSION(6, 6, 0))

/* The most bytes of a dump's time line. */
#define TIME_LINE 36

static struct region region;
static struct oops_zone *zones;	/* the dumps, console, pmsg, the ftrace zones */
static struct oops_zone *console, *pmsg, *ftrace;
static unsigned int dumps, ftraces, count;
static unsigned int next_dump, to_read;
static struct lane *dump_lane, *erase_lane;
static u8 *pmsg_copy;
static bool is_per_cpu, is_open;

static int stack_used_get(char *text, const struct kernel_param *param)
{
	size_t most = max(lane_used(dump_lane), lane_used(erase_lane));
	unsigned int i;

	for (i = dumps; zones && i < count; i++)
		most = max(most, lane_used(zones[i].lane));
	return sysfs_emit(text, "%zu\n", most);
}

static const struct kernel_param_ops stack_used_ops = { .get = stack_used_get };
module_param_cb(stack_used, &stack_used_ops, NULL, 0400);
MODULE_PARM_DESC(stack_used, "the most bytes that a write took of its stack (read only)");

/* ---- what pstore reads ---- */

static int backend_open(struct pstore_info *psi)
{
	to_read = 0;
	return 0;
}

/* A record of this kind that has no time and is not compressed. A dump that was passed over may have left both. */
static void undated(struct pstore_record *record, enum pstore_type_id type)
{
	record->type = type;
	record->time = (struct timespec64){};
	record->compressed = false;
}

/* The length of the dump's time line, 0 if it has none. */
static int time_line(const struct oops_zone *z, struct pstore_record *record)
{
	char text[64] = "", kind = 'D';
	long long seconds;
	ulong micros;
	int len = 0;

	memcpy(text, z->log, min_t(u64, z->answer.log, sizeof(text) - 1));
	if (sscanf(text, "====%lld.%lu-%c\n%n", &seconds, &micros, &kind, &len) != 3 &&
	    sscanf(text, "====%lld.%lu\n%n", &seconds, &micros, &len) != 2)
		return 0;
	record->time.tv_sec = seconds;
	record->time.tv_nsec = micros * 1000;
	record->compressed = kind == 'C';
	return len;
}

static int notice(u32 parity, u32 corrected, u32 bad, char *text, size_t room)
{
	if (!parity)
		return 0;
	if (!corrected && !bad)
		return snprintf(text, room, "\nECC: No errors detected\n");
	return snprintf(text, room, "\nECC: %u Corrected bytes, %u unrecoverable blocks\n",
			corrected, bad);
}

/* A content of so many bytes, and after it the notice on its parity. A record without memory is passed over. */
static ssize_t content(struct pstore_record *record, const u8 *bytes, size_t len, u32 parity,
		       u32 corrected, u32 bad)
{
	size_t all = len + notice(parity, corrected, bad, NULL, 0) + 1;

	record->ecc_notice_size = all - len - 1;
	record->buf = FREES_ANY_BYTES ? kvzalloc(all, GFP_KERNEL) :
					kzalloc(all, GFP_KERNEL | __GFP_NOWARN);
	if (!record->buf) {
		pr_warn("no memory to show a record of %zu bytes\n", len);
		return 0;
	}
	memcpy(record->buf, bytes, len);
	notice(parity, corrected, bad, record->buf + len, record->ecc_notice_size + 1);
	return len;
}

static ssize_t zone_content(struct pstore_record *record, const struct oops_zone *z, int head)
{
	record->id = z->place.index;
	return content(record, z->log + head, z->answer.log - head, z->place.parity, z->corrected,
		       z->bad);
}

/*
 * A dump is read where it lies. One without a time line is erased, as ramoops does, but not if another processor wrote a
 * dump there meanwhile.
 */
static ssize_t read_dump(struct pstore_record *record, struct oops_zone *z)
{
	int head;

	if (zone_read(z) || !z->log)
		return 0;
	head = time_line(z, record);
	if (!head)
		zone_erase_read(z, erase_lane);
	if (!head || z->answer.log == head)
		return 0;
	record->type = PSTORE_TYPE_DMESG;
	return zone_content(record, z, head);
}

/* A console or pmsg: its log as it was at the boot. */
static ssize_t read_ring(struct pstore_record *record, const struct oops_zone *z)
{
	if (!z->log)
		return 0;
	undated(record, z == console ? PSTORE_TYPE_CONSOLE : PSTORE_TYPE_PMSG);
	return zone_content(record, z, 0);
}

struct entry {
	unsigned long ip, parent_ip;
	u64 stamp;	/* the time, and in its low byte the processor */
};

static size_t entries(const struct oops_zone *z)
{
	return z->log ? z->answer.log / sizeof(struct entry) : 0;
}

/* The first whole entry of a zone's log: what is cut of an older one stands before it. */
static const struct entry *first_entry(const struct oops_zone *z)
{
	return (const struct entry *)(z->log + z->answer.log % sizeof(struct entry));
}

/* All processors' entries by their time: of as many places the zone whose next entry is oldest. */
static int merge(struct entry *to, size_t all)
{
	size_t *taken = kcalloc(ftraces, sizeof(*taken), GFP_KERNEL);
	size_t i, oldest, n;

	if (!taken)
		return -ENOMEM;
	for (n = 0; n < all; n++) {
		oldest = ftraces;
		for (i = 0; i < ftraces; i++) {
			if (taken[i] == entries(&ftrace[i]))
				continue;
			if (oldest == ftraces ||
			    first_entry(&ftrace[i])[taken[i]].stamp >> 8 <
				    first_entry(&ftrace[oldest])[taken[oldest]].stamp >> 8)
				oldest = i;
		}
		to[n] = first_entry(&ftrace[oldest])[taken[oldest]++];
	}
	kfree(taken);
	return 0;
}

/* Without a notice on parity, which pstore would take for the end of the last entry. */
static ssize_t read_ftrace(struct pstore_record *record)
{
	struct entry *merged;
	size_t all = 0;
	ssize_t len;
	u32 i;

	for (i = 0; i < ftraces; i++)
		all += entries(&ftrace[i]);
	if (!all)
		return 0;
	merged = kvcalloc(all, sizeof(*merged), GFP_KERNEL);
	if (!merged)
		return -ENOMEM;
	undated(record, PSTORE_TYPE_FTRACE);
	record->id = 0;
	len = merge(merged, all) ?:
	      content(record, (u8 *)merged, all * sizeof(*merged), 0, 0, 0);
	kvfree(merged);
	return len;
}

static ssize_t backend_read(struct pstore_record *record)
{
	unsigned int rings = dumps + !!console + !!pmsg;
	ssize_t len = 0;

	while (!len && to_read < rings) {
		struct oops_zone *z = &zones[to_read++];

		len = z->place.kind == OOPSBOX_DUMP ? read_dump(record, z) : read_ring(record, z);
	}
	if (!len && to_read == rings) {
		to_read++;
		len = read_ftrace(record);
	}
	return len;
}

/* ---- what pstore writes ---- */

/*
 * Of a dump only the first part, which has the newest lines: as ramoops. A zone that a stopped
 * processor was erasing is passed over, and so is one that refuses the dump.
 */
static int write_dump(struct pstore_record *record)
{
	char line[TIME_LINE + 1];
	unsigned int tries;
	size_t len;
	int err = -ENOSPC;

	if (record->part != 1)
		return -ENOSPC;
	len = scnprintf(line, sizeof(line), "====%lld.%06lu-%c\n", (s64)record->time.tv_sec,
			record->time.tv_nsec / 1000, record->compressed ? 'C' : 'D');
	for (tries = 0; err && tries < dumps; tries++) {
		record->id = next_dump;
		err = zone_dump(&zones[next_dump], line, len, record->buf, record->size);
		next_dump = (next_dump + 1) % dumps;
	}
	return err;
}

/* The tracer has interrupts off, so it stays on its processor. */
static int write_ftrace(struct pstore_record *record)
{
	unsigned int number = is_per_cpu ? smp_processor_id() : 0;

	if (number >= ftraces)
		return -EINVAL;
	return zone_append(&ftrace[number], record->buf, record->size);
}

static int backend_write(struct pstore_record *record)
{
	if (record->type == PSTORE_TYPE_DMESG)
		return write_dump(record);
	if (record->type == PSTORE_TYPE_CONSOLE && console)
		return zone_append(console, record->buf, record->size);
	if (record->type == PSTORE_TYPE_FTRACE)
		return write_ftrace(record);
	return -EINVAL;
}

/* One writer at a time comes here. What is longer than the zone loses its front, as in ramoops. */
int pmsg_append(const char __user *bytes, size_t length)
{
	size_t len = min_t(size_t, length, pmsg->place.cap);

	if (copy_from_user(pmsg_copy, bytes + length - len, len))
		return -EFAULT;
	return zone_append_long(pmsg, pmsg_copy, len);
}

static int backend_write_user(struct pstore_record *record, const char __user *bytes)
{
	int err = record->type == PSTORE_TYPE_PMSG && pmsg ? pmsg_append(bytes, record->size) :
							     -EINVAL;

	return err ? err : record->size;
}

static int erase_ftrace(void)
{
	unsigned int i;
	int err = 0;

	for (i = 0; !err && i < ftraces; i++)
		err = zone_erase(&ftrace[i], erase_lane);
	return err;
}

static int backend_erase(struct pstore_record *record)
{
	if (record->type == PSTORE_TYPE_DMESG && record->id < dumps)
		return zone_erase(&zones[record->id], erase_lane);
	if (record->type == PSTORE_TYPE_CONSOLE && console)
		return zone_erase(console, erase_lane);
	if (record->type == PSTORE_TYPE_PMSG && pmsg)
		return zone_erase(pmsg, erase_lane);
	if (record->type == PSTORE_TYPE_FTRACE)
		return erase_ftrace();
	return -EINVAL;
}

static struct pstore_info backend = {
	.owner = THIS_MODULE,
	.name = "ramoops",
	.open = backend_open,
	.read = backend_read,
	.write = backend_write,
	.write_user = backend_write_user,
	.erase = backend_erase,
};

/* ---- the zones ---- */

static const u32 kinds[] = { OOPSBOX_DUMP, OOPSBOX_CONSOLE, OOPSBOX_PMSG, OOPSBOX_FTRACE };

/* How many zones of a kind the layout has. */
static int count_kind(const struct oopsbox_params *params, u32 kind)
{
	struct oops_zone one;
	int found, answer = 0;

	for (found = 0; !answer; found++)
		answer = zone_find(&one, params, kind, found);
	return answer < 0 ? answer : found - 1;
}

/* How many of each kind, and how many in all. */
static int count_zones(const struct oopsbox_params *params, int *found)
{
	int all = 0;
	size_t i;

	for (i = 0; i < ARRAY_SIZE(kinds); i++) {
		found[i] = count_kind(params, kinds[i]);
		if (found[i] < 0)
			return found[i];
		all += found[i];
	}
	return all ? all : -EINVAL;
}

/* Zones of a kind, as many as there are. The place after them. */
static struct oops_zone *find_kind(const struct oopsbox_params *params, u32 kind, int found,
				   struct oops_zone *to)
{
	int i;

	for (i = 0; i < found; i++)
		zone_find(&to[i], params, kind, i);
	return to + found;
}

static void find_zones(const struct oopsbox_params *params, const int *found)
{
	struct oops_zone *z = find_kind(params, OOPSBOX_DUMP, found[0], zones);

	dumps = found[0];
	console = found[1] ? z : NULL;
	z = find_kind(params, OOPSBOX_CONSOLE, found[1], z);
	pmsg = found[2] ? z : NULL;
	ftrace = find_kind(params, OOPSBOX_PMSG, found[2], z);
	ftraces = found[3];
	find_kind(params, OOPSBOX_FTRACE, found[3], ftrace);
}

/* A header's word is one store only at a multiple of 4. Elsewhere device memory takes none at all: arm64 faults. */
static int place_zones(void)
{
	phys_addr_t at;
	unsigned int i;

	for (i = 0; i < count; i++) {
		at = region.address + zones[i].place.at;
		zone_place(&zones[i], &region, zones[i].place.at);
		if (at % 4 && region.is_device) {
			pr_err("a zone begins at %pa: in device memory it must be a multiple of 4\n", &at);
			return -EINVAL;
		}
		if (at % 4)
			pr_warn_once("a zone begins at %pa: its words may take two stores\n", &at);
	}
	return 0;
}

static int make_zones(const struct ramoops_platform_data *data)
{
	u64 parity = data->ecc_info.ecc_size;
	struct oopsbox_params params =
		OOPSBOX_PARAMS(data->mem_size, data->record_size, data->console_size,
			       data->ftrace_size, data->pmsg_size, parity);
	int found[ARRAY_SIZE(kinds)], all;

	params.cpus = is_per_cpu && data->ftrace_size ? nr_cpu_ids : 1;
	params.ftrace_sig = LINUX_VERSION_CODE;
	params.order = PMSG_FIRST;
	all = count_zones(&params, found);
	if (all < 0)
		return all;
	zones = kvcalloc(all, sizeof(*zones), GFP_KERNEL);
	if (!zones)
		return -ENOMEM;
	count = all;
	find_zones(&params, found);
	return place_zones();
}

/* All memory that a write will want, before the first store. */
static int give_lanes(void)
{
	unsigned int i;

	dump_lane = lane_take();
	erase_lane = lane_take();
	if (!dump_lane || !erase_lane)
		return -ENOMEM;
	for (i = 0; i < count; i++) {
		zones[i].lane = i < dumps ? dump_lane : lane_take();
		if (!zones[i].lane)
			return -ENOMEM;
	}
	pmsg_copy = pmsg ? kvmalloc(pmsg->place.cap, GFP_KERNEL) : NULL;
	if (pmsg && !pmsg_copy)
		return -ENOMEM;
	if (!dumps)
		return 0;
	backend.bufsize = zones[0].place.cap;
	backend.buf = kvzalloc(backend.bufsize, GFP_KERNEL);
	return backend.buf ? 0 : -ENOMEM;
}

static int boot_zones(void)
{
	unsigned int i;
	int err = 0;

	for (i = 0; !err && i < count; i++)
		err = zone_boot(&zones[i], erase_lane);
	return err;
}

/* Writes back what the boot erased, of a zone that is not to be used. */
static void put_back(struct oops_zone *z)
{
	if (z && z->log)
		zone_append_long(z, z->log, z->answer.log);
}

static void release(void)
{
	unsigned int i;

	for (i = 0; zones && i < count; i++) {
		vfree(zones[i].log);
		if (i >= dumps)
			lane_free(zones[i].lane);
	}
	lane_free(dump_lane);
	lane_free(erase_lane);
	dump_lane = NULL;
	erase_lane = NULL;
	console = NULL;
	pmsg = NULL;
	dumps = 0;
	ftraces = 0;
	count = 0;
	next_dump = 0;
	kvfree(zones);
	zones = NULL;
	table_free();
	kvfree(pmsg_copy);
	pmsg_copy = NULL;
	kvfree(backend.buf);
	backend.buf = NULL;
	region_unmap(&region);
	is_open = false;
}

/* All memory and zones, before the first store. */
static int prepare(const struct ramoops_platform_data *data)
{
	int err;

	region = (struct region){ .address = data->mem_address, .size = data->mem_size,
				  .type = data->mem_type };
	is_per_cpu = data->flags & RAMOOPS_FLAG_FTRACE_PER_CPU;
	err = region_map(&region);
	if (!err)
		err = table_make(data->ecc_info.ecc_size);
	if (!err)
		err = make_zones(data);
	if (!err)
		err = give_lanes();
	return err;
}

/*
 * From its registration on a dump leaves room for its time line, which would push out the dump's end. pstore is told so
 * only then: its buffer for inflated dumps goes by bufsize, and ramoops fills all of a zone.
 */
static int start(const struct ramoops_platform_data *data)
{
	int err = boot_zones();

	backend.flags = (dumps ? PSTORE_FLAGS_DMESG : 0) | (console ? PSTORE_FLAGS_CONSOLE : 0) |
			(pmsg ? PSTORE_FLAGS_PMSG : 0) | (ftraces ? PSTORE_FLAGS_FTRACE : 0);
	backend.max_reason = data->max_reason;
	if (!err)
		err = pstore_register(&backend);
	if (err) {
		put_back(console);
		put_back(pmsg);
		return err;
	}
	if (dumps)
		backend.bufsize -= TIME_LINE;
	return 0;
}

static void backend_close(void *unused)
{
	fronts_close();
	pstore_unregister(&backend);
	release();
}

static int backend_probe(struct platform_device *device)
{
	struct ramoops_platform_data data = {};
	int err = is_open ? -EBUSY : settings_read(device, &data);

	if (err)
		return err;
	is_open = true;
	err = prepare(&data) ?: start(&data);
	if (err) {
		release();
		return err;
	}
	fronts_open(console, pmsg);
	pr_info("using 0x%zx@0x%llx, ecc: %d, %u dumps, console %u, pmsg %u, %u for ftrace\n",
		region.size, (unsigned long long)region.address, data.ecc_info.ecc_size, dumps,
		console ? console->place.cap : 0, pmsg ? pmsg->place.cap : 0, ftraces);
	return devm_add_action_or_reset(&device->dev, backend_close, NULL);
}

static const struct of_device_id trees[] = {
	{ .compatible = "ramoops" },
	{}
};
MODULE_DEVICE_TABLE(of, trees);

/* ramoops's own name: a board's device of that name is taken, and both cannot be loaded at once. */
static struct platform_driver driver = {
	.probe = backend_probe,
	.driver = {
		.name = "ramoops",
		.of_match_table = trees,
		.suppress_bind_attrs = true,	/* /dev/pmsg0 may be open */
	},
};

/* The driver first, which fails if ramoops is there: it would take the device, and erase console and pmsg. */
static int __init oopsbox_init(void)
{
	int err = platform_driver_register(&driver);

	if (err)
		return err;
	err = settings_make_device();
	if (err)
		platform_driver_unregister(&driver);
	return err;
}
module_init(oopsbox_init);

static void __exit oopsbox_exit(void)
{
	settings_drop_device();
	platform_driver_unregister(&driver);
}
module_exit(oopsbox_exit);

/*
 * The kernel exports pstore_register to modules alone that declare a licence compatible with the
 * GPL: this line is what it takes to be loaded. It chooses none for these sources; the project has
 * none yet (README.md).
 */
MODULE_LICENSE("GPL");
MODULE_DESCRIPTION("ramoops on the proved calls of oopsbox");
