#define pr_fmt(fmt) KBUILD_MODNAME ": " fmt

#include <linux/io.h>
#include <linux/ioport.h>
#include <linux/libnvdimm.h>
#include <linux/mm.h>
#include <linux/slab.h>
#include <linux/vmalloc.h>
#include "region.h"

/* Memory that the kernel has pages for, also where its device tree reserves it without no-map. */
static u8 *map_pages(const struct region *r)
{
	phys_addr_t first = r->address - offset_in_page(r->address);
	unsigned int i, count = DIV_ROUND_UP(r->size + offset_in_page(r->address), PAGE_SIZE);
	struct page **pages = kmalloc_array(count, sizeof(*pages), GFP_KERNEL);
	pgprot_t prot = r->type == REGION_CACHED     ? PAGE_KERNEL :
			r->type == REGION_UNBUFFERED ? pgprot_noncached(PAGE_KERNEL) :
						       pgprot_writecombine(PAGE_KERNEL);
	u8 *mapped;

	if (!pages)
		return NULL;
	for (i = 0; i < count; i++)
		pages[i] = pfn_to_page((first >> PAGE_SHIFT) + i);
	/* VM_IOREMAP: readers of all kernel memory pass it over, as ramoops has it */
	mapped = vmap(pages, count, VM_MAP | VM_IOREMAP, prot);
	kfree(pages);
	return mapped ? mapped + offset_in_page(r->address) : NULL;
}

static u8 *map_io(const struct region *r)
{
	void __iomem *mapped;

	if (!request_mem_region(r->address, r->size, "ramoops")) {
		pr_err("0x%zx bytes at 0x%llx are another driver's\n", r->size,
		       (unsigned long long)r->address);
		return NULL;
	}
	mapped = r->type == REGION_COMBINED ? ioremap_wc(r->address, r->size) :
					      ioremap(r->address, r->size);
	if (!mapped)
		release_mem_region(r->address, r->size);
	return (u8 __force *)mapped;
}

/*
 * Device memory: each read costs, and on arm64 an access that is not aligned faults. The calls make such accesses, so
 * they read a copy, and each store goes to both.
 */
static int copy_device(struct region *r)
{
	r->view = vmalloc(r->size);
	if (!r->view)
		return -ENOMEM;
	memcpy_fromio(r->view, (void __iomem __force *)r->mapped, r->size);
	return 0;
}

int region_map(struct region *r)
{
	if (r->type > REGION_CACHED) {
		pr_err("mem_type is 0, 1 or 2\n");
		return -EINVAL;
	}
	r->by_pages = pfn_valid(r->address >> PAGE_SHIFT);
	r->mapped = r->by_pages ? map_pages(r) : map_io(r);
	if (!r->mapped)
		return -ENOMEM;
	r->is_device = r->by_pages ? r->type == REGION_UNBUFFERED : r->type != REGION_COMBINED;
	r->is_cached = r->by_pages && r->type == REGION_CACHED;
	r->view = r->mapped;
	if (r->is_cached && !IS_ENABLED(CONFIG_ARCH_HAS_PMEM_API))
		pr_warn("this kernel cannot write a cache's lines back: what a reset leaves is not known\n");
	return r->is_device ? copy_device(r) : 0;
}

void region_unmap(struct region *r)
{
	if (r->view != r->mapped)
		vfree(r->view);
	if (r->mapped && r->by_pages) {
		vunmap(r->mapped - offset_in_page(r->address));
	} else if (r->mapped) {
		iounmap((void __iomem __force *)r->mapped);
		release_mem_region(r->address, r->size);
	}
	r->mapped = NULL;
	r->view = NULL;
}

/*
 * What was stored leaves the processor before any later store does: cached lines are written back, and a barrier orders
 * the rest. A word and a run are each kept so. Inside a run the processor may reorder, as it may in ramoops.
 */
static void keep(const struct region *r, u32 at, u32 len)
{
#ifdef CONFIG_ARCH_HAS_PMEM_API
	if (r->is_cached)
		arch_wb_cache_pmem(r->mapped + at, len);
#endif
	wmb();
}

/* One store of four bytes. */
void region_store_word(struct region *r, u32 at, u32 word)
{
	if (r->is_device)
		__raw_writel(word, (void __iomem __force *)(r->mapped + at));
	else
		WRITE_ONCE(*(u32 *)(r->mapped + at), word);
	keep(r, at, sizeof(word));
	if (r->view != r->mapped)
		*(u32 *)(r->view + at) = word;
}

/* One store for each byte, at rising places. */
void region_store_bytes(struct region *r, u32 at, const u8 *bytes, u32 len)
{
	u32 i;

	if (r->is_device)
		for (i = 0; i < len; i++)
			__raw_writeb(bytes[i], (void __iomem __force *)(r->mapped + at + i));
	else
		for (i = 0; i < len; i++)
			WRITE_ONCE(r->mapped[at + i], bytes[i]);
	keep(r, at, len);
	if (r->view != r->mapped)
		memcpy(r->view + at, bytes, len);
}
