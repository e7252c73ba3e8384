// What the page calls: the proved report, and room for its input. Each export has the guard that the toolchain's own
// link gives: a call over memory that an earlier call left half written, since it was trapped, traps again.
#include "page.h"

_Bool __rattle_enter(void);
void __rattle_leave(void);

u32 oopsbox_page_report(const u8 *line, u64 line_len, const u8 *name, u64 name_len, const u8 *words, u64 words_len,
                        const u8 *tree, u64 tree_len, const u8 *image, u64 image_len, u32 format, u8 *text,
                        u64 text_len, void *answer);

#define EXPORT(name) __attribute__((export_name(#name)))

static void enter(void)
{
    if (__rattle_enter())
        __builtin_trap();
}

EXPORT(report)
u32 page_report(const u8 *line, u64 line_len, const u8 *name, u64 name_len, const u8 *words, u64 words_len,
                const u8 *tree, u64 tree_len, const u8 *image, u64 image_len, u32 format, u8 *text, u64 text_len,
                void *answer)
{
    enter();
    u32 status = oopsbox_page_report(line, line_len, name, name_len, words, words_len, tree, tree_len, image, image_len,
                                     format, text, text_len, answer);
    __rattle_leave();
    return status;
}

// Room for so many bytes, at a multiple of 16; 0 if there is none.
EXPORT(take)
u8 *page_take(u64 count)
{
    enter();
    u8 *room = rattle_alloc(count, 16).room;
    __rattle_leave();
    return room;
}
