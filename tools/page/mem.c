// memcpy, memmove, memset and memcmp of the module for the page. Short runs go by loads and stores of eight bytes; long
// ones by memory.copy and memory.fill, which are a call into the engine. This file alone is compiled with bulk memory.
#include "page.h"

typedef u64 __attribute__((aligned(1), may_alias)) near64;

static u64 load(const u8 *at) { return *(const near64 *)at; }
static void store(u8 *at, u64 value) { *(near64 *)at = value; }

static const u64 LONG = 128;

static void copy_long(u8 *to, const u8 *from, u64 count)
{
    __asm__ volatile("local.get %0\nlocal.get %1\nlocal.get %2\nmemory.copy 0, 0" ::"r"(to), "r"(from), "r"(count)
                     : "memory");
}

static void fill_long(u8 *to, u32 byte, u64 count)
{
    __asm__ volatile("local.get %0\nlocal.get %1\nlocal.get %2\nmemory.fill 0" ::"r"(to), "r"(byte), "r"(count)
                     : "memory");
}

static void copy_forward(u8 *to, const u8 *from, u64 count)
{
    for (; count >= 8; to += 8, from += 8, count -= 8)
        store(to, load(from));
    for (; count; count--)
        *(volatile u8 *)to++ = *from++;
}

static void copy_backward(u8 *to, const u8 *from, u64 count)
{
    for (; count >= 8; count -= 8)
        store(to + count - 8, load(from + count - 8));
    for (; count; count--)
        ((volatile u8 *)to)[count - 1] = from[count - 1];
}

void *memmove(void *to, const void *from, u64 count)
{
    if (count >= 8 && count <= 16) {
        u64 first = load(from), last = load((const u8 *)from + count - 8);
        store(to, first);
        store((u8 *)to + count - 8, last);
    } else if (count > LONG)
        copy_long(to, from, count);
    else if ((u64)to - (u64)from >= count)
        copy_forward(to, from, count);
    else
        copy_backward(to, from, count);
    return to;
}

void *memcpy(void *to, const void *from, u64 count) { return memmove(to, from, count); }

void *memset(void *start, int byte, u64 count)
{
    u8 *to = start;
    if (count > LONG) {
        fill_long(to, (u8)byte, count);
        return start;
    }
    for (; count >= 8; to += 8, count -= 8)
        store(to, (u8)byte * 0x0101010101010101ul);
    for (; count; count--)
        *(volatile u8 *)to++ = (u8)byte;
    return start;
}

int memcmp(const void *one, const void *other, u64 count)
{
    const u8 *a = one, *b = other;
    for (; count; a++, b++, count--)
        if (*a != *b)
            return *a - *b;
    return 0;
}
