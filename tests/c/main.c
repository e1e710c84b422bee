/* main [SEED]: all tests of the C calls. The last line is 'N passed, M failed'; the status is 0 where M is 0. */
#include <stdio.h>
#include <stdlib.h>

#include "check.h"
#include "tests.h"

/* Says how the group went, and starts the next one. */
static void tell(const char *group)
{
    static unsigned passed, failed;

    printf("%s: %u passed, %u failed\n", group, checks_passed() - passed, checks_failed() - failed);
    fflush(stdout);
    passed = checks_passed();
    failed = checks_failed();
}

int main(int count, char **words)
{
    uint64_t seed = count > 1 ? strtoull(words[1], NULL, 10) : 1;

    test_known(&library);
    tell("worked examples");
    test_refusals(&library);
    tell("refusals");
    test_differences(&library, seed);
    tell("differences from the plain reading");
    test_stack(&library);
    tell("a stack of 64 KiB");
    test_runs(&library, seed);
    tell("runs, whole and cut");
    test_link(&library, seed);
    tell("both ends over a link");
    printf("%u passed, %u failed\n", checks_passed(), checks_failed());
    return checks_failed() != 0;
}
