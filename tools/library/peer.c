/* See peer.h. Its other half is compiled with the peer's headers in place of the kernel's. */
#include "kshim.h"
#include <linux/pstore.h>
#include <linux/pstore_ram.h>
#include "kram.h"
#include "peer.h"

/* What ramoops calls of pstore: nothing is registered anywhere. */
enum pstore_type_id pstore_name_to_type(const char *name)
{
	(void)name;
	return PSTORE_TYPE_MAX;
}

int pstore_register(struct pstore_info *info)
{
	(void)info;
	return 0;
}

void pstore_unregister(struct pstore_info *info)
{
	(void)info;
}

void kshim_found(const char *format)
{
	(void)format;
}

int peer_boot(uint8_t *region, size_t size, size_t console, size_t pmsg, int ecc)
{
	kshim_mem = region;
	kshim_mem_size = size;
	kram_params(size, 0, console, 0, pmsg, ecc);
	return kram_boot();
}

void peer_end(void)
{
	kram_forget();
}

void peer_append(int kind, const uint8_t *bytes, unsigned length)
{
	persistent_ram_write(kram_zone(kind, 0), bytes, length);
}

size_t peer_old(int kind, const uint8_t **log)
{
	struct persistent_ram_zone *zone = kram_zone(kind, 0);
	*log = persistent_ram_old(zone);
	return persistent_ram_old_size(zone);
}

void peer_counts(int kind, int *corrected, int *bad)
{
	struct persistent_ram_zone *zone = kram_zone(kind, 0);
	*corrected = zone->corrected_bytes;
	*bad = zone->bad_blocks;
}
