/* Ends the kernel in the way that `how` names, as soon as it is loaded. For tools/kernel-check. */
#include <linux/delay.h>
#include <linux/hrtimer.h>
#include <linux/module.h>
#include <linux/preempt.h>
#include <linux/version.h>

static char *how = "oops";
module_param(how, charp, 0400);

static struct hrtimer timer;

/* Uses up its kernel stack: the panic then runs on a small one (4 KiB on arm64, 8 KiB on x86-64). */
static noinline int deeper(int depth)
{
	char frame[256];

	OPTIMIZER_HIDE_VAR(depth);
	memset(frame, depth, sizeof(frame));
	barrier_data(frame);
	return depth < 1000000 ? deeper(depth + 1) + frame[0] : frame[255];
}

static enum hrtimer_restart in_interrupt_handler(struct hrtimer *unused)
{
	BUG();
	return HRTIMER_NORESTART;
}

static void interrupt(void)
{
#if LINUX_VERSION_CODE >= KERNEL_VERSION(6, 13, 0)
	hrtimer_setup(&timer, in_interrupt_handler, CLOCK_MONOTONIC, HRTIMER_MODE_REL_HARD);
#else
	hrtimer_init(&timer, CLOCK_MONOTONIC, HRTIMER_MODE_REL_HARD);
	timer.function = in_interrupt_handler;
#endif
	hrtimer_start(&timer, ms_to_ktime(100), HRTIMER_MODE_REL_HARD);
	msleep(5000);
}

static void lockup(void)
{
	preempt_disable();
	for (;;)
		cpu_relax();
}

static int __init crash_init(void)
{
	if (!strcmp(how, "oops"))
		BUG();
	else if (!strcmp(how, "overflow"))
		return deeper(0) ? -EINVAL : 0;
	else if (!strcmp(how, "interrupt"))
		interrupt();
	else if (!strcmp(how, "lockup"))
		lockup();
	return -EINVAL;
}
module_init(crash_init);
MODULE_LICENSE("GPL");
MODULE_DESCRIPTION("ways to end a kernel");
