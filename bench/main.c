/* Measures every row in several passes and prints the table. Ends with 1 where two checksums differ. */
#include <stdio.h>

#include "measure.h"

enum { PASSES = 6 }; /* a row's rounds lie apart, so that no single disturbance falls on them all */

static unsigned over, apart;

static void print_number(size_t number)
{
    if (number == 0)
        printf("%7s", "-");
    else
        printf("%7lu", (unsigned long)number);
}

static void print_times(const struct row *row, const char *name, double library_time, double plain_time)
{
    double ratio = library_time / plain_time;
    int is_over = row->aim != 0 && ratio > row->aim;

    printf("%-38s", name);
    print_number(row->rules);
    print_number(row->slots);
    printf("  %-8s%13.1f%13.1f%8.2f", row->buffers, library_time, plain_time, ratio);
    print_number(row->aim);
    printf("%s", is_over ? "!" : " ");
    over += (unsigned)is_over;
}

/* The row, and where it has a name, what it takes more than the row before. */
static void print_row(const struct row *row, const struct measured *m)
{
    print_times(row, row->name, m->library, m->plain);
    printf("  %016llx%s\n", (unsigned long long)m->checksum, m->apart == 0 ? "" : "  THE CHECKSUMS DIFFER");
    apart += m->apart != 0;
    if (row->less_row_before != NULL) {
        print_times(row, row->less_row_before, m->library - m[-1].library, m->plain - m[-1].plain);
        printf("\n");
    }
}

/* One pass over all rows. */
static void measure_rows(struct measured *measured)
{
    for (size_t i = 0; i < row_count; i++)
        measure(&rows[i], &measured[i]);
}

static void print_rows(const struct measured *measured)
{
    printf("%-38s%7s%7s  %-8s%13s%13s%8s%7s   %s\n", "", "rules", "slots", "buffers", "library, ns", "plain C, ns", "ratio", "aim", "checksum");
    for (size_t i = 0; i < row_count; i++)
        print_row(&rows[i], &measured[i]);
}

int main(void)
{
    static struct measured measured[MOST_ROWS];

    for (int pass = 0; pass < PASSES; pass++)
        measure_rows(measured);
    print_rows(measured);
    printf("\n%u ratios over their aim (!), %u checksums that differ\n", over, apart);
    return apart != 0;
}
