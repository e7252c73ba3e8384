/* Takes the device `ramoops` from its driver, and gives it back. For tools/kernel-check. */
#include <linux/device.h>
#include <linux/module.h>
#include <linux/platform_device.h>

static int __init rebind_init(void)
{
	struct device *device = bus_find_device_by_name(&platform_bus_type, NULL, "ramoops");
	int is_bound;

	if (!device)
		return -ENODEV;
	device_release_driver(device);
	is_bound = device_attach(device);
	put_device(device);
	return is_bound == 1 ? -ECANCELED : -EIO;
}
module_init(rebind_init);
MODULE_LICENSE("GPL");
MODULE_DESCRIPTION("unbinds and binds ramoops's device");
