/* What a board sets: ramoops's parameters, or its node in a device tree. */
#ifndef SETTINGS_H
#define SETTINGS_H

#include <linux/platform_device.h>
#include <linux/pstore_ram.h>

/* The parameters as a device, if mem_size is given; else a tree's node or a board's own device is waited for. */
int settings_make_device(void);
void settings_drop_device(void);

int settings_read(struct platform_device *device, struct ramoops_platform_data *data);

#endif
