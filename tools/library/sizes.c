/* The structs of oopsbox.h have the sizes that it states, in C and in C++. */
#include <oopsbox.h>

#ifdef __cplusplus
#define HAS(type, size) static_assert(sizeof(struct type) == size, #type)
#else
#define HAS(type, size) _Static_assert(sizeof(struct type) == size, #type)
#endif

HAS(oopsbox_zone_place, 36);
HAS(oopsbox_layout_answer, 24);
HAS(oopsbox_zone_answer, 32);
HAS(oopsbox_params, 104);
HAS(oopsbox_row, 16);
HAS(oopsbox_flight, 96);
HAS(oopsbox_store, 152);
HAS(oopsbox_stores, 616);
HAS(oopsbox_boot, 64);
HAS(oopsbox_lengths, 16);
HAS(oopsbox_report_answer, 32);

/* The parity that is named once is that of each kind. */
static const struct oopsbox_params params = OOPSBOX_PARAMS(32768, 4096, 8192, 2048, 1024, 16);

static int are_as_named(void)
{
	return params.mem == 32768 && params.dump == 4096 && params.console == 8192 && params.ftrace == 2048 &&
	       params.pmsg == 1024 && params.ecc == 16 && params.ecc_dump == 16 && params.ecc_console == 16 &&
	       params.ecc_ftrace == 16 && params.ecc_pmsg == 16 && params.cpus == 1 && params.block == 128 &&
	       params.ftrace_sig == 0;
}

/* Prints them, for the Python module to be compared. */
#include <stdio.h>

int main(void)
{
	printf("%zu %zu %zu %zu %zu %zu %zu %zu %zu\n", sizeof(struct oopsbox_zone_place), sizeof(struct oopsbox_layout_answer),
	       sizeof(struct oopsbox_lengths), sizeof(struct oopsbox_params), sizeof(struct oopsbox_zone_answer),
	       sizeof(struct oopsbox_flight), sizeof(struct oopsbox_boot), sizeof(struct oopsbox_stores),
	       sizeof(struct oopsbox_report_answer));
	return !are_as_named();
}
