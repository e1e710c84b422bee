/* An agent and a chip with a link between them that loses, repeats, delays and reorders; demand 3 is looked at after each step. */
#include "link.h"

#include <string.h>

#include "asked.h"
#include "make.h"
#include "watch.h"

/* Messages under way. A full pool loses one for each that comes; a message delivered may stay, to be delivered again. */
enum { MOST_UNDER_WAY = 24 };
struct pool {
    size_t count;
    uint8_t message[MOST_UNDER_WAY][WRITE];
};

/* One life of both ends, and beside it the same life of ends that are right. */
struct world {
    const struct calls *calls;
    enum wrong way;
    unsigned checks;
    struct random random;
    struct field field;
    uint8_t policy[MOST_RULES * RULE], key[KEY], message[WRITE + 1];
    uint8_t table[MOST_SLOTS * SLOT], keeper[MOST_SLOTS * SLOT], out[2 * MOST_SLOTS];
    uint8_t right_table[MOST_SLOTS * SLOT], right_keeper[MOST_SLOTS * SLOT], right_out[2 * MOST_SLOTS];
    struct asked asked, right;
    struct pool writes, reports;
    struct watch watch;
    struct report report;
};

static void say(struct world *w, unsigned check, const char *words)
{
    if ((w->checks & check) && !w->report.reported) {
        w->report.reported = check;
        w->report.words = words;
    }
}

static void saw(struct world *w, enum event event)
{
    w->report.seen[event]++;
}

/* ---- Messages. */

static void pool_add(struct pool *pool, struct random *r, const uint8_t *message, size_t size)
{
    size_t at = pool->count < MOST_UNDER_WAY ? pool->count++ : random_below(r, MOST_UNDER_WAY);

    memcpy(pool->message[at], message, size);
}

/* Some message under way; one time in two it stays there. */
static void pool_take(struct pool *pool, struct random *r, uint8_t *message, size_t size)
{
    size_t at = random_below(r, pool->count);

    memcpy(message, pool->message[at], size);
    if (random_one_in(r, 2))
        memmove(pool->message[at], pool->message[--pool->count], WRITE);
}

/* ---- One call, of the ends under test and of the right ones. */

static void lend(struct world *w, enum part_name part, const uint8_t *bytes, size_t length)
{
    struct part lent = {(uint8_t *)(uintptr_t)bytes, length};

    w->asked.part[part] = w->right.part[part] = lent;
}

/* Lends `length` bytes of each side's output. */
static void lend_out(struct world *w, size_t length)
{
    lend(w, OUT, w->out, length);
    w->right.part[OUT].bytes = w->right_out;
}

static struct answer call(struct world *w, enum call_name name)
{
    ends_are(w->way);
    struct answer answer = call_list[name].ask(w->calls, &w->asked), right;
    ends_are(RIGHT);
    if (!(w->checks & ANSWERS))
        return answer;
    right = call_list[name].ask(&plain_ends, &w->right);
    if (!same_answer(&answer, &right))
        say(w, ANSWERS, call_list[name].name);
    if (memcmp(w->out, w->right_out, sizeof w->out) != 0)
        say(w, ANSWERS, "an output");
    if (memcmp(w->table, w->right_table, w->asked.part[TABLE].length) != 0)
        say(w, ANSWERS, "the table's bytes");
    if (memcmp(w->keeper, w->right_keeper, w->asked.part[KEEPER].length) != 0)
        say(w, ANSWERS, "the keeper's bytes");
    return answer;
}

/* ---- Steps. */

static void some_key(struct world *w)
{
    if (random_one_in(&w->random, 4))
        make_key(&w->random, &w->field, w->key);
    else
        memcpy(w->key, watch_some(&w->watch, &w->random), KEY);
}

static void miss(struct world *w)
{
    lend_out(w, WRITE);
    struct answer answer = call(w, MISS);
    if (answer.refusal) {
        say(w, ANSWERS, "a miss was refused");
        return;
    }
    saw(w, answer.field[0] == 2 ? TO_EMPTY : answer.field[0] == 3 ? OVER_ENTRY : answer.field[0] == 5 ? GIVEN_AGAIN : NO_RULE);
    if (answer.field[0] != 0)
        pool_add(&w->writes, &w->random, w->out, WRITE);
    watch_missed(&w->watch, w->key);
}

/* A packet is looked up; a miss is carried to the keeper at once, or never. */
static void packet(struct world *w)
{
    some_key(w);
    lend_out(w, REPORT);
    struct answer answer = call(w, LOOKUP);
    if (answer.refusal)
        say(w, ANSWERS, "a lookup was refused");
    else if (answer.field[0]) {
        saw(w, A_HIT);
        pool_add(&w->reports, &w->random, w->out, REPORT);
    } else if (random_one_in(&w->random, 2))
        miss(w);
}

/* A miss arrives that was long under way: whatever the table holds by now. */
static void late_miss(struct world *w)
{
    some_key(w);
    miss(w);
}

static void deliver_write(struct world *w)
{
    if (w->writes.count == 0)
        return;
    pool_take(&w->writes, &w->random, w->message, WRITE);
    saw(w, get32(w->message + 4) > get32(w->table + get16(w->message + 2) * SLOT) ? WRITE_STORED : WRITE_TOO_LATE);
    lend(w, MESSAGE, w->message, WRITE);
    lend_out(w, REPORT);
    if (call(w, WRITES).refusal)
        say(w, ANSWERS, "a write was refused");
    else
        pool_add(&w->reports, &w->random, w->out, REPORT);
}

static void deliver_report(struct world *w)
{
    if (w->reports.count == 0)
        return;
    pool_take(&w->reports, &w->random, w->message, REPORT);
    saw(w, get32(w->message + 4) < get32(w->keeper + get16(w->message + 2) * SLOT) ? REPORT_TOO_LATE : REPORT_SETTLES);
    lend(w, MESSAGE, w->message, REPORT);
    if (call(w, REPORTS).refusal)
        say(w, ANSWERS, "a report was refused");
}

/* A message altered so that it must be refused. */
static void spoil(struct world *w, size_t size)
{
    size_t length = size;

    switch (random_below(&w->random, 5)) {
    case 0: length = random_below(&w->random, size); break;
    case 1: w->message[0] ^= 3; break;
    case 2: w->message[1] = 1; break;
    case 3: put16(w->message + 2, (unsigned)(w->asked.part[TABLE].length / SLOT)); break;
    default: put32(w->message + 4, 0); break;
    }
    lend(w, MESSAGE, w->message, length);
}

/* A call that is refused, or that gives nothing because its output is empty. */
static void refused_call(struct world *w)
{
    static const enum call_name calls[] = {LOOKUP, MISS, WRITES, REPORTS};
    enum call_name name = calls[random_below(&w->random, 4)];
    struct pool *pool = name == WRITES ? &w->writes : &w->reports;
    size_t size = name == WRITES ? WRITE : REPORT;

    some_key(w);
    lend_out(w, 0);
    if (name == WRITES || name == REPORTS) {
        if (pool->count == 0)
            return;
        memcpy(w->message, pool->message[random_below(&w->random, pool->count)], size);
        spoil(w, size);
    }
    struct answer answer = call(w, name);
    if (answer.refusal)
        saw(w, CALL_REFUSED);
    else if (name == WRITES || name == REPORTS)
        say(w, ANSWERS, "a spoilt message was taken");
}

static void ask_open(struct world *w)
{
    lend_out(w, sizeof w->out);
    call(w, OPEN);
}

static void step(struct world *w)
{
    size_t which = random_below(&w->random, 32);

    if (which < 12)
        packet(w);
    else if (which < 16)
        late_miss(w);
    else if (which < 22)
        deliver_write(w);
    else if (which < 29)
        deliver_report(w);
    else if (which < 31)
        refused_call(w);
    else
        ask_open(w);
}

/* ---- Worlds. */

/* In how many slots the ends differ. Demand 3's second half: each of them is open. */
static size_t slots_apart(struct world *w)
{
    size_t apart = 0;

    for (size_t i = 0; i < w->asked.part[TABLE].length; i += SLOT) {
        if (same_entry(w->table + i, w->keeper + i))
            continue;
        apart++;
        if (!is_open(w->keeper + i))
            say(w, HALF_TWO, "the ends differ in a slot that is not open");
    }
    return apart;
}

static void look(struct world *w)
{
    if ((w->checks & HALF_ONE) && watch_table(&w->watch, w->table) != NULL)
        say(w, HALF_ONE, "the table names another than the best rule");
    if (slots_apart(w) > 0)
        saw(w, ENDS_APART);
}

/* The first world has one slot, the second as many as there may be. */
static void begin(struct world *w, const struct plan *plan, unsigned number, uint64_t seed)
{
    struct random r = {seed + number};
    size_t rules = plan->full ? plan->most_rules : random_below(&r, plan->most_rules + 1);
    size_t slots = number == 0 ? 1 : number == 1 ? plan->most_slots : 1 + random_below(&r, plan->most_slots);

    make_field(&r, &w->field, 2 + (unsigned)random_below(&r, plan->most_positions - 1));
    make_policy(&r, &w->field, w->policy, rules);
    memset(w->table, 0, sizeof w->table);
    memset(w->keeper, 0, sizeof w->keeper);
    memset(w->right_table, 0, sizeof w->right_table);
    memset(w->right_keeper, 0, sizeof w->right_keeper);
    memset(w->out, 0, sizeof w->out);
    memset(w->right_out, 0, sizeof w->right_out);
    w->writes.count = w->reports.count = 0;
    w->random = r;
    lend(w, POLICY, w->policy, rules * RULE);
    lend(w, A_KEY, w->key, KEY);
    lend(w, TABLE, w->table, slots * SLOT);
    lend(w, KEEPER, w->keeper, slots * SLOT);
    w->right.part[TABLE].bytes = w->right_table;
    w->right.part[KEEPER].bytes = w->right_keeper;
    watch_start(&w->watch, w->policy, rules, slots);
}

/* One life, up to the first report. */
static void live(struct world *w, unsigned steps)
{
    for (unsigned i = 0; i < steps && !w->report.reported; i++) {
        w->report.step = i;
        step(w);
        look(w);
        w->report.steps_made++;
    }
}

struct report link_run(const struct calls *calls, enum wrong way, unsigned checks, const struct plan *plan, uint64_t seed)
{
    static struct world w;
    struct report none = {0, 0, 0, "nothing", 0, {0}};

    w.calls = calls;
    w.way = way;
    w.checks = checks;
    w.report = none;
    for (unsigned world = 0; world < plan->worlds && !w.report.reported; world++) {
        begin(&w, plan, world, seed);
        w.report.world = world;
        live(&w, plan->steps);
    }
    return w.report;
}
