/* Refusal 1: whether a state is sound for a store of a length. */
#include "state.h"

static bool version_within(const struct version *v)
{
    return v->first <= VERSION_PART_MOST && v->second <= VERSION_PART_MOST && v->third <= VERSION_PART_MOST;
}

/* Says whether a cluster is within its limits. */
static bool cluster_within(const struct cluster *c)
{
    if (c->part < 1 || !version_within(&c->version) || c->need_count > NEEDS_MOST)
        return false;
    for (size_t i = 0; i < c->need_count; i++)
        if (c->needs[i].part < 1 || !version_within(&c->needs[i].least))
            return false;
    return true;
}

/* Says whether a table is within its limits and its part numbers rise. */
static bool table_within(const struct table *table)
{
    uint32_t last = 0;
    if (table->count > CLUSTERS_MOST)
        return false;
    for (size_t i = 0; i < table->count; i++) {
        if (table->clusters[i].part <= last || !cluster_within(&table->clusters[i]))
            return false;
        last = table->clusters[i].part;
    }
    return true;
}

/* Says whether a package is sound by itself. */
static bool package_sound(const struct package *p)
{
    bool received = p->state == TRANSFERRING ? p->received <= p->size : p->received == p->size;
    return p->id >= 1 && p->size >= 1 && received && p->blocks <= p->received;
}

/* Says whether the ids rise below the next one, each package is sound and the areas fit the store. */
static bool transfers_sound(const struct transfers *t, size_t store_length)
{
    uint64_t end = 0;
    uint32_t last = 0;
    if (t->count > PACKAGES_MOST || store_length > STORE_MOST || t->next < 1 || t->next > (uint64_t)UINT32_MAX + 1)
        return false;
    for (size_t i = 0; i < t->count; i++) {
        const struct package *p = &t->packages[i];
        end += p->size;
        if (p->id <= last || p->id >= t->next || !package_sound(p) || end > store_length)
            return false;
        last = p->id;
    }
    return true;
}

/* Says whether an id is among the listed ones. */
static bool is_listed(const struct session *session, uint32_t id)
{
    for (size_t i = 0; i < session->count; i++)
        if (session->entries[i].id == id)
            return true;
    return false;
}

/* Says whether exactly the Processed packages are listed, and the phase goes with the list and with the packages that are processing. */
static bool list_sound(const struct state *s)
{
    size_t processed = 0, processing = 0;
    if (s->session.count > ENTRIES_MOST)
        return false;
    for (size_t i = 0; i < s->transfers.count; i++) {
        const struct package *p = &s->transfers.packages[i];
        processed += p->state == PROCESSED;
        processing += p->state == PACKAGE_PROCESSING;
        if ((p->state == PROCESSED) != is_listed(&s->session, p->id))
            return false;
    }
    if (processed != s->session.count || processing != (s->phase == PROCESSING))
        return false;
    return s->phase == PROCESSING || (s->phase == IDLE) == (s->session.count == 0);
}

/* Says whether the origin is one of those that the phase may have come from. */
static bool origin_sound(const struct state *s)
{
    if (s->phase == ROLLING_BACK)
        return s->origin == VERIFYING || s->origin == ACTIVATED;
    if (s->phase == CLEANING_UP)
        return s->origin == READY || s->origin == ACTIVATED || s->origin == ROLLED_BACK;
    return s->origin == IDLE;
}

/* Says whether the kept values and the cancel note are cleared. */
static bool work_cleared(const struct work *w)
{
    const struct cluster *c = &w->action.cluster;
    const struct version *v = &c->version;
    return w->action.change == INSTALL && c->part == 0 && (v->first | v->second | v->third | v->fourth) == 0 && c->need_count == 0
        && (w->start | w->count | w->sum | w->running_sums.c0 | w->running_sums.c1 | w->done) == 0 && !w->cancel_noted;
}

/* Says whether the kept numbers are those of the package that is processing. */
static bool work_numbers_sound(const struct state *s)
{
    const struct work *w = &s->work;
    const struct package *p = s->transfers.packages;
    while (p->state != PACKAGE_PROCESSING)
        p++;
    return (uint64_t)w->start + w->count == p->size && w->done <= w->count && w->sum <= SUM_MOST && w->running_sums.c0 <= 254
        && w->running_sums.c1 <= 254;
}

/* Gives 11 where one of the first `listed` entries has the action's cluster, else what the staged cluster refuses: as it is not touched,
   that is the one of the beginning table. */
uint32_t c_touched_or_refused(const struct session *session, size_t listed, const struct action *action, size_t staged_count)
{
    for (size_t i = 0; i < listed; i++)
        if (session->entries[i].action.cluster.part == action->cluster.part)
            return CLUSTER_TOUCHED;
    return c_staged_refusal(action, c_find(&session->beginning, action->cluster.part), staged_count);
}

/* Says whether an action is within its limits; of a remove only the part number counts. */
static bool action_within(const struct action *action)
{
    return action->change == REMOVE ? action->cluster.part >= 1 : cluster_within(&action->cluster);
}

/* Says whether the listed actions, and then the kept one, pass 11 to 15 and 21 in turn. */
static bool actions_sound(const struct state *s)
{
    const struct session *session = &s->session;
    size_t staged_count = session->beginning.count;
    for (size_t i = 0; i < session->count; i++) {
        const struct action *action = &session->entries[i].action;
        if (!action_within(action) || c_touched_or_refused(session, i, action, staged_count))
            return false;
        staged_count = c_count_after(action, staged_count);
    }
    if (s->phase != PROCESSING)
        return true;
    return action_within(&s->work.action) && !c_touched_or_refused(session, session->count, &s->work.action, staged_count);
}

/* Says whether a state is sound for a store of a length. */
bool c_sound(const struct state *s, size_t store_length)
{
    if (!transfers_sound(&s->transfers, store_length) || !list_sound(s) || !origin_sound(s))
        return false;
    if (s->phase == PROCESSING ? !work_numbers_sound(s) : !work_cleared(&s->work))
        return false;
    return table_within(&s->session.beginning) && actions_sound(s);
}
