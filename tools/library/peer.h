/*
 * Linux's own ramoops code in this process: peer.c over the objects that the peer's build.sh makes. The zones are those
 * that ramoops makes of these sizes, console and pmsg alone. A boot erases both, as Linux does.
 */
#ifndef PEER_H
#define PEER_H

#include <stddef.h>
#include <stdint.h>

enum { PEER_CONSOLE = 1, PEER_PMSG = 3 };

/* Boots region[0 .. size). 0: done. The region stays in use until peer_end. */
int peer_boot(uint8_t *region, size_t size, size_t console, size_t pmsg, int ecc);
void peer_end(void);

/* The kernel's persistent_ram_write. */
void peer_append(int kind, const uint8_t *bytes, unsigned length);

/* The log that the boot found, and how many corrected bytes and uncorrectable parts. */
size_t peer_old(int kind, const uint8_t **log);
void peer_counts(int kind, int *corrected, int *bad);

#endif
