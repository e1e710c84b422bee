/* agent.c: a switch agent and its chip in one program. Copy the loop; put your own link where a message is carried.
 *
 *     cc -Iinclude examples/agent.c target/staticlib/libwunnagresk.a     (tools/staticlib writes the archive)
 */
#include <stdio.h>
#include <stdlib.h>
#include <string.h>

#include "wunnagresk.h"

enum { SLOTS = 2 };

/* Rule records: value, mask, priority, action, zero. The larger priority goes first. */
static const uint8_t policy[] = {
    /* source, destination, ports, protocol       their masks                                                            */
    0,0,0,0,  0,0,0,0,   0,0, 0,22, 6,            0,0,0,0, 0,0,0,0,     0,0, 255,255, 255,  0,30, 0,1, 0,0, /* 0: TCP to port 22 */
    0,0,0,0,  10,1,0,0,  0,0, 0,0,  0,            0,0,0,0, 255,255,0,0, 0,0, 0,0,     0,    0,20, 0,2, 0,0, /* 1: to 10.1.0.0/16 */
    0,0,0,0,  0,0,0,0,   0,0, 0,0,  0,            0,0,0,0, 0,0,0,0,     0,0, 0,0,     0,    0,10, 0,3, 0,0, /* 2: all else */
};

/* The agent's end and the chip's: equally many slots, and both cleared at a start. */
static uint8_t keeper[SLOTS * WG_SLOT_SIZE];
static uint8_t table[SLOTS * WG_SLOT_SIZE];

/* With buffers of the right size and a link that alters nothing, no call of this program is refused. */
static void must(uint32_t refusal, size_t place)
{
    if (refusal == WG_ACCEPTED)
        return;
    fprintf(stderr, "refused: %u, place %lu\n", (unsigned)refusal, (unsigned long)place);
    exit(1);
}

/* A restart clears both ends, and drops every message under way. */
static void restart(void)
{
    struct wg_count checked = wg_check(policy, sizeof policy);

    must(checked.refusal, checked.place);
    memset(keeper, 0, sizeof keeper);
    memset(table, 0, sizeof table);
}

/* The agent receives a report. */
static void agent_report(const uint8_t *report)
{
    struct wg_done done = wg_report(keeper, sizeof keeper, report, WG_REPORT_SIZE);

    must(done.refusal, done.place);
}

/* The chip receives a write: late, twice or never, as the link pleases. */
static void chip_write(const uint8_t *write)
{
    uint8_t report[WG_REPORT_SIZE];
    struct wg_done done = wg_write(table, sizeof table, write, WG_WRITE_SIZE, report, sizeof report);

    must(done.refusal, done.place);
    agent_report(report); /* carried by the link */
}

/* The agent receives a miss: it decides for this packet, and has the chip decide for the next ones. */
static void agent_miss(const uint8_t *key, int lost)
{
    uint8_t write[WG_WRITE_SIZE];
    struct wg_outcome miss = wg_miss(policy, sizeof policy, key, WG_KEY_SIZE, keeper, sizeof keeper, write, sizeof write);

    must(miss.refusal, miss.place);
    if (miss.outcome == WG_NO_RULE) {
        printf("no rule\n");
        return;
    }
    printf("miss, rule %u, action %u%s\n", miss.rule, miss.action, miss.outcome == WG_AGAIN ? ", written again" : lost ? ", write lost" : "");
    if (miss.outcome == WG_USED_UP)
        restart(); /* after 4,294,967,295 writes */
    else if (!lost)
        chip_write(write); /* carried by the link */
}

/* A packet arrives at the chip. */
static void chip_packet(const uint8_t *key, int lost)
{
    uint8_t report[WG_REPORT_SIZE];
    struct wg_found found = wg_lookup(key, WG_KEY_SIZE, table, sizeof table, report, sizeof report);

    must(found.refusal, found.place);
    if (!found.hit) {
        agent_miss(key, lost); /* carried by the link */
        return;
    }
    printf("hit, rule %u, action %u\n", found.rule, found.action);
    agent_report(report); /* carried by the link */
}

/* The console asks what decides for a key, and which slots are not known to be alike at both ends. */
static void console(const uint8_t *key)
{
    uint8_t list[SLOTS * WG_NUMBER_SIZE];
    struct wg_shown shown = wg_show(policy, sizeof policy, key, WG_KEY_SIZE, table, sizeof table);
    struct wg_count open = wg_open(keeper, sizeof keeper, list, sizeof list);
    const uint8_t *record = wg_shown_at(shown, policy, table);

    must(shown.refusal, shown.place);
    must(open.refusal, open.place);
    if (shown.source == WG_FROM_TABLE)
        printf("  decided by slot %u, of rule %u;", (unsigned)shown.number, wg_get16(record + WG_SLOT_RULE));
    else if (shown.source == WG_FROM_POLICY)
        printf("  decided by rule %u, priority %u;", (unsigned)shown.number, wg_get16(record + WG_RULE_PRIORITY));
    printf(" open slots:%s", open.count == 0 ? " none" : "");
    for (size_t i = 0; i < open.count; i++)
        printf(" %u", wg_get16(list + i * WG_NUMBER_SIZE));
    printf("\n");
}

int main(void)
{
    static const uint8_t packets[][WG_KEY_SIZE] = {
        {10,9,9,9,  10,1,0,5,   200,1, 0,80,  6}, /* rule 1 */
        {10,9,9,8,  10,1,7,7,   200,2, 0,80,  6}, /* rule 1, by the same entry */
        {10,9,9,9,  10,1,0,5,   200,3, 0,22,  6}, /* rule 0, which goes before; its write is lost */
        {10,9,9,9,  10,1,0,5,   200,3, 0,22,  6}, /* rule 0, its write is given again */
        {10,9,9,9,  192,0,2,1,  200,4, 0,53, 17}, /* rule 2, over the entry with the fewest hits */
    };

    restart();
    for (size_t i = 0; i < sizeof packets / sizeof packets[0]; i++) {
        chip_packet(packets[i], i == 2);
        console(packets[i]);
    }
    return 0;
}
