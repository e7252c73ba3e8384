/*
 * The console and /dev/pmsg0 that pstore has with CONFIG_PSTORE_CONSOLE and CONFIG_PSTORE_PMSG.
 * Debian's kernels have neither. Where pstore has its own, these do nothing.
 */
#ifndef FRONT_H
#define FRONT_H

#include "zone.h"

int pmsg_append(const char __user *bytes, size_t length);
void fronts_open(struct oops_zone *console, struct oops_zone *pmsg);
void fronts_close(void);

#endif
