/* The library's calls, in one table. */
#include "calls.h"

const struct calls library = {
    wg_check, wg_best, wg_rule, wg_cover, wg_isolate, wg_lookup, wg_write, wg_miss, wg_report, wg_open, wg_show,
    wg_run
};
