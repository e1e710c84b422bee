/* Ends in plain C, with the library's calls: right, or wrong in one named way. */
#ifndef ENDS_H
#define ENDS_H

#include "calls.h"

/* docs/RULES.md's errors that look harmless, and the programs that its promises must shut out. */
enum wrong {
    RIGHT,
    CACHES_RULE_UNCHANGED,
    FIXES_DEPENDENTS_BIT,
    OLDER_REPORT_SETTLES,
    RESENT_WRITE_ANEW,
    SMALL_PRIORITY_FIRST,
    REFUSES_EVERYTHING,
    TABLE_ALWAYS_MISSES,
    KEEPER_CHANGES_NOTHING,
    STORES_FIRST_WRITE_ONLY,
    KEEPER_NEVER_SETTLES,
    INVENTS_HITS,
    CACHES_BARE_KEYS,
    INVENTS_TOTALS
};

/* From now on plain_ends is wrong in this way. */
void ends_are(enum wrong way);

#endif
