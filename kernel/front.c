#define pr_fmt(fmt) KBUILD_MODNAME ": " fmt

#include <linux/console.h>
#include <linux/fs.h>
#include <linux/miscdevice.h>
#include <linux/module.h>
#include <linux/mutex.h>
#include "front.h"

static struct oops_zone *console_zone;
static bool has_console, has_pmsg;
static DEFINE_MUTEX(pmsg_mutex);

static void console_write(struct console *con, const char *text, unsigned int len)
{
	if (len)
		zone_append(console_zone, text, len);
}

static struct console own_console = {
	.name = "oopsbox",
	.write = console_write,
	.index = -1,
};

static ssize_t pmsg_write(struct file *file, const char __user *bytes, size_t count, loff_t *at)
{
	int err;

	mutex_lock(&pmsg_mutex);
	err = pmsg_append(bytes, count);
	mutex_unlock(&pmsg_mutex);
	return err ? err : count;
}

static const struct file_operations pmsg_calls = {
	.owner = THIS_MODULE,
	.write = pmsg_write,
	.llseek = noop_llseek,
};

static struct miscdevice own_pmsg = {
	.minor = MISC_DYNAMIC_MINOR,
	.name = "pmsg0",
	.fops = &pmsg_calls,
	.mode = 0220,
};

void fronts_open(struct oops_zone *console, struct oops_zone *pmsg)
{
	console_zone = console;
	if (console && !IS_ENABLED(CONFIG_PSTORE_CONSOLE)) {
		/* each time: unregister_console clears one of them */
		own_console.flags = CON_PRINTBUFFER | CON_ENABLED | CON_ANYTIME;
		register_console(&own_console);
		has_console = true;
	}
	if (pmsg && !IS_ENABLED(CONFIG_PSTORE_PMSG))
		has_pmsg = misc_register(&own_pmsg) == 0;
}

void fronts_close(void)
{
	if (has_pmsg)
		misc_deregister(&own_pmsg);
	if (has_console)
		unregister_console(&own_console);
	has_pmsg = false;
	has_console = false;
}
