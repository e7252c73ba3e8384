/*
 * oopsbox.h - the crash log store of Linux (ramoops) as a library.
 *
 * Every call works on memory of the caller's and keeps nothing between calls. Calls may run in several threads at once;
 * that is tested, and no proof says it. All numbers are in the machine's own order; bytes of a region are as the kernel
 * stores them. docs/LIBRARY.md has examples, and docs/CLAIMS.md what is proved.
 *
 * A call is undefined only if a pointer is not what it should be: the first byte of so many bytes (or so many structs)
 * that stand there for the whole call. Meanwhile nothing else reads or writes what the call may write, and nothing
 * writes what it only reads; others may read that too. If somebody may write a zone meanwhile, give the call a copy. Two
 * slices of one call do not overlap. A slice of length 0 may have any pointer, NULL too. All other arguments are
 * tested.
 *
 * Link with -loopsbox.
 */
#ifndef OOPSBOX_H
#define OOPSBOX_H

#ifdef __KERNEL__
#include <linux/types.h>
#else
#include <stddef.h>
#include <stdint.h>
#endif

#if defined(__SIZEOF_POINTER__) && __SIZEOF_POINTER__ != 8
#error "the proved code keeps each pointer in a slot of 8 bytes: there is no library for a processor of 32 bits"
#endif

#ifdef __cplusplus
extern "C" {
#endif

/* What a call answers. oopsbox_run also answers the other exit statuses of the program, 0 to 10. */
enum {
	OOPSBOX_DONE = 0,      /* all was done */
	OOPSBOX_FAULT = 3,     /* the parameters are faulty, or have no layout */
	OOPSBOX_SHORT = 4,     /* the image ends before the zone, or has fewer bytes than the layout */
	OOPSBOX_ROOM = 12,     /* a slice of the caller's is too short; each call says which length it needs */
	OOPSBOX_ARGUMENT = 13, /* an argument is outside its range; nothing was written */
	OOPSBOX_MEMORY = 14,   /* malloc answered NULL; nothing was written */
	OOPSBOX_BAD = 15,      /* no codeword is near enough */
	OOPSBOX_CLOSED = 16,   /* the zone does not stand as one that can be written: unsigned, no ring, or a ring that
				  cannot be appended to. Boot it first; nothing was written */
	OOPSBOX_UNLAID = 17,   /* the layout was looked for, and none is taken */
	OOPSBOX_TREE = 18      /* the device tree gives no layout */
};

/*
 * The most bytes of stack that a call takes, its callees in the library included: each call on the store in place, each
 * of the two calls on a block, and each other call. tools/library-checks measures them on x86-64 and on 64-bit ARM; no
 * proof says it.
 */
#define OOPSBOX_STACK_PLACE 8192
#define OOPSBOX_STACK_CODES 8192
#define OOPSBOX_STACK 65536

/* ---- zones, layouts and readings as numbers ---------------------------------------------------------------------- */

enum { OOPSBOX_DUMP = 0, OOPSBOX_CONSOLE = 1, OOPSBOX_FTRACE = 2, OOPSBOX_PMSG = 3 };
enum { OOPSBOX_UNSIGNED = 0, OOPSBOX_EMPTY = 1, OOPSBOX_INVALID = 2, OOPSBOX_FOUND = 3 };

/* A zone of a layout. All lengths are bytes. 36 bytes. */
struct oopsbox_zone_place {
	uint16_t kind;   /* OOPSBOX_DUMP .. OOPSBOX_PMSG */
	uint16_t byte_order; /* of the header's words. 0: little-endian; 1: big-endian */
	uint32_t index;  /* its number among the zones of this kind, from 0 */
	uint32_t at;     /* its first byte in the image */
	uint32_t size;   /* its length */
	uint32_t cap;    /* the length of its data */
	uint32_t blocks; /* how many parity blocks it has */
	uint32_t parity; /* the parity bytes of each block, and of the header */
	uint32_t block;  /* the data bytes of a block */
	uint32_t sig;    /* the signature in its header */
};

/* 24 bytes. */
struct oopsbox_layout_answer {
	uint64_t zones; /* how many zones the layout has */
	uint64_t word;  /* which word is at fault, from 1; 0 where no single word is */
	uint32_t mem;   /* the bytes of the image */
	uint32_t fault; /* the fault's number; docs/MESSAGES.md lists them. 0: there is a layout */
};

/* What a boot reads of a zone. 32 bytes. */
struct oopsbox_zone_answer {
	uint64_t log;       /* the length of the log, in bytes; 0 unless the zone was found */
	uint32_t state;     /* OOPSBOX_UNSIGNED .. OOPSBOX_FOUND */
	uint32_t sig;       /* the words of the header, corrected where they can be */
	uint32_t start;
	uint32_t size;
	uint32_t corrected; /* corrected bytes of header and blocks, of their parity too */
	uint32_t bad;       /* parts that could not be corrected: they read as they stand */
};

/* ---- the store in place ------------------------------------------------------------------------------------------ */

/*
 * A zone is read and written where it lies. The library looks at the zone's bytes and says which stores come next; the
 * caller makes them in its own way (a plain store, a write to a device, a copy that is flushed). No call of this part
 * allocates, and none needs a C library but memcpy, memmove and memset.
 *
 * In each call `place` is a zone as oopsbox_zone_at or oopsbox_layout tells it, and zone[0 .. zone_len) are that zone's
 * own bytes, place->size of them, as they stand now. place->kind, at most OOPSBOX_PMSG, matters to a boot alone; index
 * and at matter to none.
 *
 * `table` is NULL with table_len 0, or the 256 rows that oopsbox_table wrote for place->parity parity bytes and that
 * nothing changed since. Without a table the calls are slower. What stands in the rows is not tested: with others no
 * proof says what a call does.
 */

/*
 * Parameters of a layout, in bytes, such as those of a region of 1 MiB whose four kinds of zones have 4096 bytes each,
 * and 16 bytes of parity for each block and header:
 *
 *     static const struct oopsbox_params params = OOPSBOX_PARAMS(1048576, 4096, 4096, 4096, 4096, 16);
 *
 * Who fills the struct by hand sets each member: nothing is assumed, and `ecc` alone gives no zone any parity. The
 * words of oopsbox_layout are the module's, and read in two ways of their own: the word ecc=1 is 16 parity bytes, and
 * mem_size is rounded down to a power of two. 104 bytes.
 */
struct oopsbox_params {
	uint64_t mem;         /* the image, taken as it is; 1 to 16777216 */
	uint64_t dump;        /* a dump zone (record_size); 0 for none */
	uint64_t console;     /* the console zone; 0 for none */
	uint64_t ftrace;      /* all ftrace zones together; 0 for none */
	uint64_t pmsg;        /* the pmsg zone; 0 for none */
	uint64_t ecc;         /* parity bytes of a block and of a header; 0 for none, at most 127 */
	uint64_t cpus;        /* the number of ftrace zones; 1 to 64 */
	uint64_t block;       /* the data bytes of a parity block; 32, 64 or 128 */
	uint64_t ecc_dump;    /* as ecc, for the zones of each kind; these four count, and ecc is only tested */
	uint64_t ecc_console;
	uint64_t ecc_ftrace;
	uint64_t ecc_pmsg;
	uint32_t ftrace_sig;  /* the tag in the signature of ftrace zones */
	uint16_t order;       /* 0: ftrace zones before pmsg, as Linux 6.1; 1: pmsg before them, as Linux 6.12 */
	uint16_t byte_order;  /* of the headers' words. 0: little-endian; 1: big-endian */
};

/* An initializer: the module's first six parameters in their order, the parity in bytes and for each kind of zone; one
   ftrace zone without a tag, and blocks of 128 bytes, as the kernel has them. */
#define OOPSBOX_PARAMS(mem, record_size, console_size, ftrace_size, pmsg_size, ecc) \
	{(mem), (record_size), (console_size), (ftrace_size), (pmsg_size), (ecc), 1, 128, (ecc), (ecc), (ecc), (ecc), 0, 0, 0}

/*
 * The zone of this kind (OOPSBOX_DUMP .. OOPSBOX_PMSG) and this number among the zones of its kind, from 0, in the
 * layout of *params. The sizes of zones are rounded down as a kernel rounds them. oopsbox_layout tells the same zones of
 * the same parameters as words.
 *
 * OOPSBOX_DONE: *place and *answer were written; the answer's word and fault are 0.
 * OOPSBOX_FAULT: there is no layout; *answer tells the fault's number, its zones, word and mem are 0. *place is as it
 * was.
 * OOPSBOX_ARGUMENT: kind is above OOPSBOX_PMSG, order or byte_order is above 1, or there is a layout without such a
 * zone; nothing was written.
 */
uint32_t oopsbox_zone_at(const struct oopsbox_params *params, uint32_t kind, uint32_t index,
			 struct oopsbox_zone_place *place, struct oopsbox_layout_answer *answer);

/* The rows of an encoder's table, 4096 bytes in all. */
#define OOPSBOX_TABLE 256

/* One row: a number of 128 bits in two halves. 16 bytes. */
struct oopsbox_row {
	uint64_t low;
	uint64_t high;
};

/*
 * Writes table[0 .. 256) for so many parity bytes: 1 to 127. A table saves time in the calls below.
 *
 * OOPSBOX_DONE: all 256 rows were written. OOPSBOX_ARGUMENT: parity is not 1 to 127, or table_len is not 256; nothing
 * was written.
 */
uint32_t oopsbox_table(uint32_t parity, struct oopsbox_row *table, size_t table_len);

enum { OOPSBOX_APPEND = 0, OOPSBOX_ERASE = 1, OOPSBOX_WRITE_DUMP = 2 };

/* A call on a zone that was begun: plain numbers, no pointer. Keep it, copy it, store it; change nothing in it. 96
   bytes. */
struct oopsbox_flight {
	uint64_t made;     /* how many stores were handed out so far */
	uint64_t payload;  /* the payload's length */
	struct oopsbox_zone_place zone;
	uint32_t line;     /* the line's length; 0 unless it is a dump */
	uint32_t kind;     /* OOPSBOX_APPEND .. OOPSBOX_WRITE_DUMP */
	uint32_t old_sig;  /* the header's words when the call began */
	uint32_t old_start;
	uint32_t old_size;
	uint32_t leg;      /* where the call is: its part, .. */
	uint32_t start;    /* .. the ring at the part's begin, .. */
	uint32_t size;
	uint32_t phase;    /* .. what the next store belongs to, .. */
	uint32_t block;    /* .. the block whose parity is stored, .. */
	uint32_t number;   /* .. and how many stores of the phase were handed out */
};

enum { OOPSBOX_WORD = 0, OOPSBOX_LINE = 1, OOPSBOX_PAYLOAD = 2, OOPSBOX_BYTES = 3 };

/* One word, or one run of bytes. It lies at zone[place .. place + len), which is within the zone. A word is one store
   of four bytes; a processor promises that it is one only where the zone begins at a multiple of 4, as place->at tells.
   All else is a store for each byte, at rising places. 152 bytes. */
struct oopsbox_store {
	uint64_t from;      /* LINE, PAYLOAD: the bytes are line[from .. from + len) or payload[from .. from + len) */
	uint32_t what;      /* OOPSBOX_WORD .. OOPSBOX_BYTES */
	uint32_t place;     /* counted from the zone's first byte */
	uint32_t len;       /* how many bytes, at least one; 4 for a word */
	uint32_t word;      /* WORD: the four bytes as a little-endian number */
	uint8_t bytes[128]; /* BYTES: the first len of these; WORD: the first four are the word's */
};

/* The next stores of a call: stores[0 .. count), in this order. What is after them in the array is not to be read.
   616 bytes. */
struct oopsbox_stores {
	struct oopsbox_store stores[4];
	uint32_t count;   /* 0 to 4 */
	uint32_t is_last; /* 1: the call has no stores after these; 0: ask again */
};

/*
 * Begins to append payload[0 .. payload_len) to a zone. What is longer than the zone's data is cut to its end, as a
 * kernel does. No store is handed out yet: ask oopsbox_flight_next.
 *
 * OOPSBOX_DONE: *flight was written.
 * OOPSBOX_ARGUMENT: no layout can have such a zone, or zone_len is not place->size; nothing was written.
 * OOPSBOX_CLOSED: the header's words as they stand are not signed with place->sig, are no ring (start at most size,
 * size at most place->cap), or are a ring that is not open: start is neither size nor is the ring full, or start is
 * place->cap. Nothing was written. A boot (oopsbox_boot_begin) mends such a zone or erases it.
 */
uint32_t oopsbox_append_begin(const struct oopsbox_zone_place *place, const uint8_t *zone, size_t zone_len,
			      const uint8_t *payload, size_t payload_len, struct oopsbox_flight *flight);

/* Begins to erase a zone. As oopsbox_append_begin, but a ring need not be open. */
uint32_t oopsbox_erase_begin(const struct oopsbox_zone_place *place, const uint8_t *zone, size_t zone_len,
			     struct oopsbox_flight *flight);

/*
 * Begins to write a dump into a zone: it is erased, then line[0 .. line_len) and the front of payload[0 .. payload_len)
 * that fits are written. The line is the dump's time line of at most 36 bytes with its newline. As
 * oopsbox_append_begin, but a ring need not be open, and OOPSBOX_ARGUMENT also if line_len is above 36.
 */
uint32_t oopsbox_dump_begin(const struct oopsbox_zone_place *place, const uint8_t *zone, size_t zone_len,
			    const uint8_t *line, size_t line_len, const uint8_t *payload, size_t payload_len,
			    struct oopsbox_flight *flight);

/*
 * Hands out the next stores of a call, at most `most` of them in all. The caller makes them, in order, and then asks
 * again, with zone[0 .. zone_len) as they then stand; line and payload are the same bytes as at the begin (an append and
 * an erasure have no line, an erasure no payload). A flight of a begin that succeeded is never refused while these stay
 * so. Ask for as many as can be made at once: with most 1 a part's parity is computed again for each byte.
 *
 * An answer ends before the next parity, at `most` stores, at four rows, or at the call's end. So ask until is_last is
 * 1. Mostly an append without parity has one answer, and one with parity has two. Of oopsbox_append it is proved that
 * without parity its answer is the whole append.
 *
 * OOPSBOX_DONE: *stores are the next ones, at least one where one is left, and at most `most`; *flight stands after
 * them. stores->is_last is 1 if none is left then. Who asks again gets none, and is_last again.
 * OOPSBOX_ARGUMENT: *flight is none of a call with a line and a payload of these lengths, zone_len is not the zone's
 * size, line_len is above 36, table_len is neither 0 nor 256, or most is 0; nothing was written.
 */
uint32_t oopsbox_flight_next(struct oopsbox_flight *flight, const uint8_t *zone, size_t zone_len, const uint8_t *line,
			     size_t line_len, const uint8_t *payload, size_t payload_len,
			     const struct oopsbox_row *table, size_t table_len, uint32_t most,
			     struct oopsbox_stores *stores);

/*
 * oopsbox_append_begin and the first oopsbox_flight_next in one call: begins to append payload[0 .. payload_len), and
 * hands out its first stores, as that call does with `most` UINT32_MAX. Of an append without parity these are all:
 * is_last is 1. Where it is 0, make the stores and go on with oopsbox_flight_next.
 *
 * OOPSBOX_DONE: *flight and *stores were written. OOPSBOX_ARGUMENT, OOPSBOX_CLOSED: as oopsbox_append_begin; nothing was
 * written.
 */
uint32_t oopsbox_append(const struct oopsbox_zone_place *place, const uint8_t *zone, size_t zone_len,
			const uint8_t *payload, size_t payload_len, struct oopsbox_flight *flight,
			struct oopsbox_stores *stores);

/*
 * What a boot reads of a zone: its state, its words, its counts and the log's length, corrected where they can be.
 *
 * OOPSBOX_DONE: *answer was written. OOPSBOX_ARGUMENT: no layout can have such a zone, zone_len is not place->size, or
 * table_len is neither 0 nor 256; nothing was written.
 */
uint32_t oopsbox_zone_read(const struct oopsbox_zone_place *place, const uint8_t *zone, size_t zone_len,
			   const struct oopsbox_row *table, size_t table_len, struct oopsbox_zone_answer *answer);

/*
 * Bytes of a zone's log, from byte `from` on, oldest first: as many as there are and fit into log[0 .. log_len). Only
 * the blocks of these bytes are decoded. oopsbox_zone_read tells how long the log is.
 *
 * OOPSBOX_DONE: *got is how many bytes of log were written, 0 where the log ends before `from`; the others are as they
 * were. OOPSBOX_ARGUMENT: as oopsbox_zone_read.
 */
uint32_t oopsbox_zone_log(const struct oopsbox_zone_place *place, const uint8_t *zone, size_t zone_len,
			  const struct oopsbox_row *table, size_t table_len, uint64_t from, uint8_t *log, size_t log_len,
			  uint64_t *got);

/* A boot of a zone that was begun: plain numbers, no pointer. Keep it, copy it, store it; change nothing in it. 64
   bytes. */
struct oopsbox_boot {
	uint64_t made;    /* how many stores were handed out so far */
	struct oopsbox_zone_place zone;
	uint32_t phase;   /* where the boot is: what the next store belongs to, .. */
	uint32_t erasure; /* .. 0 if the zone is kept, 1 if it is erased, 2 if it is signed and erased, .. */
	uint32_t block;   /* .. the block that is corrected, .. */
	uint32_t within;  /* .. how many bytes of header or block were compared, .. */
	uint32_t count;   /* .. and how many blocks are corrected */
};

/*
 * Begins what a boot does to a zone: corrected bytes are stored, and a zone that is not kept is signed where it is
 * unsigned, and erased. Read the zone first (oopsbox_zone_read, oopsbox_zone_log): what is erased is gone. A boot takes
 * no table.
 *
 * OOPSBOX_DONE: *boot was written. OOPSBOX_ARGUMENT: no layout can have such a zone, or zone_len is not place->size;
 * nothing was written.
 */
uint32_t oopsbox_boot_begin(const struct oopsbox_zone_place *place, const uint8_t *zone, size_t zone_len,
			    struct oopsbox_boot *boot);

/*
 * Hands out the next stores of a boot, as oopsbox_flight_next does of a call: one word or one run, at most 128 stores.
 * There is no line and no payload, so `what` is OOPSBOX_WORD or OOPSBOX_BYTES. The last answer has no stores: its count
 * is 0 and its is_last 1, and both are so in no other. Then the zone can be written.
 *
 * OOPSBOX_DONE: *stores are the next ones; *boot stands after them.
 * OOPSBOX_ARGUMENT: *boot has numbers that no boot has, or zone_len is not the zone's size; nothing was written.
 */
uint32_t oopsbox_boot_next(struct oopsbox_boot *boot, const uint8_t *zone, size_t zone_len,
			   struct oopsbox_stores *stores);

/* ---- one block of the Reed-Solomon code; these two calls allocate nothing ---------------------------------------- */

/*
 * Makes parity[0 .. parity_len) the parity of data[0 .. data_len).
 *
 * data_len is 1 to 254 bytes, parity_len 1 to 127, and both together at most 255.
 *
 * OOPSBOX_DONE: parity was written. OOPSBOX_ARGUMENT: the lengths are not those; nothing was written.
 */
uint32_t oopsbox_rs_encode(const uint8_t *data, size_t data_len, uint8_t *parity, size_t parity_len);

/*
 * Corrects data[0 .. data_len) by its parity. Lengths are as above. places_len is at least parity_len / 2.
 *
 * OOPSBOX_DONE: *corrected is how many bytes of data and parity differ from the nearest codeword, at most
 * parity_len / 2; the first *corrected bytes of places are where, rising, from 0 at data[0] on and from data_len at
 * parity[0] on; data is the codeword's. Parity is never written: encode the data again for its corrected bytes.
 * OOPSBOX_BAD: no codeword differs in at most parity_len / 2 bytes; *corrected is 0, and data is as it was.
 * OOPSBOX_ARGUMENT: the lengths of data and parity are not those; nothing was written.
 * OOPSBOX_ROOM: places_len is too small; nothing was written.
 */
uint32_t oopsbox_rs_decode(uint8_t *data, size_t data_len, const uint8_t *parity, size_t parity_len, uint8_t *places,
			   size_t places_len, uint32_t *corrected);

/* ---- layouts and zones ------------------------------------------------------------------------------------------- */

/*
 * The zones of the parameters in params[0 .. params_len), in the order in which they lie. Parameters are words
 * key=value, as on a kernel's command line, each two with one space between: "mem_size=65536 ecc=1". A text without
 * bytes is one word without bytes, and so an unknown key. It allocates.
 *
 * OOPSBOX_DONE: answer->zones places were written, *answer too; the other places are as they were.
 * OOPSBOX_ROOM: places_len, a number of structs, is below answer->zones; *answer was written, and no place.
 * OOPSBOX_FAULT: *answer tells the fault (a word's: 1 unknown key, 2 twice, 3 no number; the layout's: word is 0), its
 * zones and mem are 0, and no place was written.
 * OOPSBOX_ARGUMENT: params is not UTF-8. OOPSBOX_MEMORY: no memory. On both nothing was written.
 */
uint32_t oopsbox_layout(const uint8_t *params, size_t params_len, struct oopsbox_zone_place *places, size_t places_len,
			struct oopsbox_layout_answer *answer);

/*
 * What a boot reads of a zone of image[0 .. image_len): its state, its words, its counts, and its log, oldest byte
 * first. index counts the zones of the layout from 0. The image is not written. It allocates.
 *
 * OOPSBOX_DONE: *answer and the first answer->log bytes of log were written.
 * OOPSBOX_ROOM: log_len is below answer->log; *answer was written, and log is as it was.
 * OOPSBOX_FAULT: the parameters have no layout (oopsbox_layout says why). OOPSBOX_SHORT: the image ends before the zone
 * does. OOPSBOX_ARGUMENT: params is not UTF-8, or there is no such zone. OOPSBOX_MEMORY: no memory. On all of these
 * nothing was written.
 */
uint32_t oopsbox_zone(const uint8_t *params, size_t params_len, uint32_t index, const uint8_t *image, size_t image_len,
		      uint8_t *log, size_t log_len, struct oopsbox_zone_answer *answer);

/* ---- the whole tool ---------------------------------------------------------------------------------------------- */

struct oopsbox_lengths {
	uint64_t image; /* how many bytes the image has */
	uint64_t text;  /* how many bytes the text has */
};

/*
 * Runs the tool's command in words[0 .. words_len) on an image in memory. The words are those of the program's command
 * line, each two with one space between: "IMAGE list mem_size=65536". The first stands for the image's path; it is
 * not read, and no file is touched. script[0 .. script_len) is what the program would read from standard input.
 *
 * Before the call lengths->image is how many bytes of image[0 .. image_len) there are; it is 0 for an image that is
 * still to be made (blank, make). lengths->text is not read.
 *
 * 0 to 10: the program's exit status. The first lengths->text bytes of text are what the program would print, and the
 * first lengths->image bytes of image what the image then holds; the rest of both is as it was. 5 never comes. 1, 6 and 7
 * tell that memory was refused for the work, the image or the text; that they come only then is tested, not proved.
 * OOPSBOX_ROOM: image_len is below lengths->image or text_len below lengths->text, which tell what the run needs; image
 * and text are as they were. Call again with room, and set lengths->image to the bytes that there are again: then the
 * run is the same.
 * OOPSBOX_ARGUMENT: lengths->image is above image_len, or words is not UTF-8. OOPSBOX_MEMORY: no memory. On both
 * nothing was written.
 */
uint32_t oopsbox_run(const uint8_t *words, size_t words_len, const uint8_t *script, size_t script_len, uint8_t *image,
		     size_t image_len, uint8_t *text, size_t text_len, struct oopsbox_lengths *lengths);

/* ---- the report -------------------------------------------------------------------------------------------------- */

enum { OOPSBOX_TEXT = 0, OOPSBOX_JSON = 1, OOPSBOX_HTML = 2 };

/* What is told of a report; what says nothing is 0. 32 bytes. */
struct oopsbox_report_answer {
	uint64_t hint;   /* how many of the text's first bytes are lines on a layout that was looked for */
	uint64_t text;   /* how many bytes the text has in all */
	uint64_t word;   /* which word is at fault, from 1; 0 where no single word is */
	uint32_t fault;  /* the fault's number */
	uint32_t needed; /* the bytes that the layout needs */
};

/*
 * The report of image[0 .. image_len), as the program oopsreport makes it of a file: as text, as one line of JSON, or as
 * a page (format). The image is not written. name[0 .. name_len) is UTF-8 and stands for the file's path. words are
 * words key=value, each two with one space between; there may be none. tree[0 .. tree_len) is a flattened device tree,
 * or no byte.
 *
 * The layout is that of the tree's only ramoops node, where there is a tree; words count more than the node. Else it is
 * that of the words, if mem_size is one of them. Else it is looked for in the image, among those that agree with the
 * words. Without a tree, words such as pstore_blk.kmsg_size=64 (in KiB) are of a storage of the kernel's pstore_blk; and
 * without words too, an image with one of its dumps is such a storage. It allocates.
 *
 * OOPSBOX_DONE: the first answer->text bytes of text are the report, after answer->hint bytes of lines on a layout that
 * was looked for, each with its newline: the layout's words, and those of another that explains as much. Of a storage
 * they are its sizes, that no dump is of a panic, and the zones at which the kernel's own listing fails.
 * OOPSBOX_UNLAID: the layout was looked for and none is taken. answer->fault is 1: none was found; 2: none explains the
 * image; 3: not all were tried. On 2 and 3 the first answer->text bytes of text are a line with the best.
 * OOPSBOX_ROOM: text_len is below answer->text; text is as it was. *answer is what it would be with room.
 * On all of these the rest of text is as it was.
 *
 * OOPSBOX_FAULT: *answer tells the fault (a word's: 1 unknown key, 2 twice, 3 no number; else word is 0: the layout's,
 * or 101 to 105, where block_size, ecc_dump, ecc_console, ecc_ftrace or ecc_pmsg is given without mem_size; or 201 to
 * 207: the image is no storage of the sizes that words give).
 * OOPSBOX_SHORT: the image has fewer bytes than answer->needed.
 * OOPSBOX_TREE: answer->fault is 1 to 13: the tree is broken; 14: it has no ramoops node; 15: it has several; 16: a word
 * cpus is wanted, since there is an ftrace zone for each processor. docs/MESSAGES.md lists them. On these three text is
 * as it was.
 *
 * OOPSBOX_ARGUMENT: name or words is not UTF-8, or format is none of the three. OOPSBOX_MEMORY: no memory. On both
 * nothing was written.
 */
uint32_t oopsbox_report(const uint8_t *name, size_t name_len, const uint8_t *words, size_t words_len,
			const uint8_t *tree, size_t tree_len, const uint8_t *image, size_t image_len, uint32_t format,
			uint8_t *text, size_t text_len, struct oopsbox_report_answer *answer);

#ifdef __cplusplus
}
#endif

#endif
