/* One form for all twelve calls: what is lent, and what is answered. */
#include "asked.h"

#include <string.h>

/* A buffer as the two arguments that it is lent by. */
#define LENT(name) asked->part[name].bytes, asked->part[name].length

static struct answer ask_check(const struct calls *calls, struct asked *asked)
{
    struct wg_count a = calls->check(LENT(POLICY));
    struct answer answer = {a.refusal, a.place, {a.count}};

    return answer;
}

static struct answer ask_best(const struct calls *calls, struct asked *asked)
{
    struct wg_best_answer a = calls->best(LENT(POLICY), LENT(A_KEY));
    struct answer answer = {a.refusal, a.place, {a.found, a.rule, a.action}};

    return answer;
}

static struct answer ask_rule(const struct calls *calls, struct asked *asked)
{
    struct wg_part a = calls->rule(LENT(POLICY), asked->number);
    struct answer answer = {a.refusal, a.place, {a.offset, a.length}};

    return answer;
}

static struct answer ask_cover(const struct calls *calls, struct asked *asked)
{
    struct wg_count a = calls->cover(LENT(POLICY), asked->number, LENT(OUT));
    struct answer answer = {a.refusal, a.place, {a.count}};

    return answer;
}

static struct answer ask_isolate(const struct calls *calls, struct asked *asked)
{
    struct wg_isolated a = calls->isolate(LENT(POLICY), LENT(A_KEY), asked->number, LENT(OUT));
    struct answer answer = {a.refusal, a.place, {a.fixed, a.wildcards}};

    return answer;
}

static struct answer ask_lookup(const struct calls *calls, struct asked *asked)
{
    struct wg_found a = calls->lookup(LENT(A_KEY), LENT(TABLE), LENT(OUT));
    struct answer answer = {a.refusal, a.place, {a.hit, a.slot, a.rule, a.action}};

    return answer;
}

static struct answer ask_write(const struct calls *calls, struct asked *asked)
{
    struct wg_done a = calls->write(LENT(TABLE), LENT(MESSAGE), LENT(OUT));
    struct answer answer = {a.refusal, a.place, {0}};

    return answer;
}

static struct answer ask_miss(const struct calls *calls, struct asked *asked)
{
    struct wg_outcome a = calls->miss(LENT(POLICY), LENT(A_KEY), LENT(KEEPER), LENT(OUT));
    struct answer answer = {a.refusal, a.place, {a.outcome, a.action, a.rule, a.slot, a.evicted}};

    return answer;
}

static struct answer ask_report(const struct calls *calls, struct asked *asked)
{
    struct wg_done a = calls->report(LENT(KEEPER), LENT(MESSAGE));
    struct answer answer = {a.refusal, a.place, {0}};

    return answer;
}

static struct answer ask_open(const struct calls *calls, struct asked *asked)
{
    struct wg_count a = calls->open(LENT(KEEPER), LENT(OUT));
    struct answer answer = {a.refusal, a.place, {a.count}};

    return answer;
}

static struct answer ask_show(const struct calls *calls, struct asked *asked)
{
    struct wg_shown a = calls->show(LENT(POLICY), LENT(A_KEY), LENT(TABLE));
    struct answer answer = {a.refusal, a.place, {a.source, a.number, a.offset, a.length}};

    return answer;
}

static struct answer ask_run(const struct calls *calls, struct asked *asked)
{
    struct wg_count a = calls->run(LENT(POLICY), LENT(TRACE), LENT(TABLE), LENT(KEEPER), LENT(OUT), &asked->totals);
    struct answer answer = {a.refusal, a.place, {a.count}};

    return answer;
}

#define HAS(name) (1u << (name))

const struct call call_list[CALLS] = {
    [CHECK] = {"wg_check", ask_check, HAS(POLICY)},
    [BEST] = {"wg_best", ask_best, HAS(POLICY) | HAS(A_KEY)},
    [A_RULE] = {"wg_rule", ask_rule, HAS(POLICY)},
    [COVER] = {"wg_cover", ask_cover, HAS(POLICY) | HAS(OUT)},
    [ISOLATE] = {"wg_isolate", ask_isolate, HAS(POLICY) | HAS(A_KEY) | HAS(OUT)},
    [LOOKUP] = {"wg_lookup", ask_lookup, HAS(A_KEY) | HAS(TABLE) | HAS(OUT)},
    [WRITES] = {"wg_write", ask_write, HAS(TABLE) | HAS(MESSAGE) | HAS(OUT)},
    [MISS] = {"wg_miss", ask_miss, HAS(POLICY) | HAS(A_KEY) | HAS(KEEPER) | HAS(OUT)},
    [REPORTS] = {"wg_report", ask_report, HAS(KEEPER) | HAS(MESSAGE)},
    [OPEN] = {"wg_open", ask_open, HAS(KEEPER) | HAS(OUT)},
    [SHOW] = {"wg_show", ask_show, HAS(POLICY) | HAS(A_KEY) | HAS(TABLE)},
    [RUN] = {"wg_run", ask_run, HAS(POLICY) | HAS(TRACE) | HAS(TABLE) | HAS(KEEPER) | HAS(OUT)}
};

int same_answer(const struct answer *a, const struct answer *b)
{
    return a->refusal == b->refusal && a->place == b->place && memcmp(a->field, b->field, sizeof a->field) == 0;
}
