/* Tables of clusters: versions compared, needs met, and actions applied. */
#include "state.h"

#include <string.h>

/* Compares two versions part by part from the left: below 0, 0 or above 0. */
int c_compare_versions(struct version a, struct version b)
{
    if (a.first != b.first)
        return a.first < b.first ? -1 : 1;
    if (a.second != b.second)
        return a.second < b.second ? -1 : 1;
    if (a.third != b.third)
        return a.third < b.third ? -1 : 1;
    return a.fourth == b.fourth ? 0 : a.fourth < b.fourth ? -1 : 1;
}

/* Gives the place of a part number, or the count where the table has none. */
static size_t place_of(const struct table *table, uint32_t part)
{
    size_t i = 0;
    while (i < table->count && table->clusters[i].part != part)
        i++;
    return i;
}

/* Finds the cluster with a part number, or NULL. */
const struct cluster *c_find(const struct table *table, uint32_t part)
{
    size_t i = place_of(table, part);
    return i < table->count ? &table->clusters[i] : NULL;
}

/* Says whether the table has the needed cluster, at the least version or above and in the same main version. */
static bool meets(const struct table *table, const struct need *need)
{
    const struct cluster *c = c_find(table, need->part);
    return c && c->version.first == need->least.first && c_compare_versions(c->version, need->least) >= 0;
}

/* Says whether the table meets each need of each of its clusters. */
bool c_needs_met(const struct table *table)
{
    for (size_t i = 0; i < table->count; i++) {
        const struct cluster *c = &table->clusters[i];
        for (size_t k = 0; k < c->need_count; k++)
            if (!meets(table, &c->needs[k]))
                return false;
    }
    return true;
}

/* Gives the first of 12, 13, 21, 14 and 15 that applies to an action by the cluster staged under its part number, or 0. */
uint32_t c_staged_refusal(const struct action *action, const struct cluster *staged, size_t staged_count)
{
    if (action->change == INSTALL)
        return staged ? CLUSTER_PRESENT : staged_count >= CLUSTERS_MOST ? TABLE_FULL : 0;
    if (!staged)
        return CLUSTER_ABSENT;
    if (action->change == REMOVE)
        return staged->stays ? STAYS : 0;
    return c_compare_versions(action->cluster.version, staged->version) > 0 ? 0 : OLD_VERSION;
}

/* Gives the number of staged clusters after an action that is not refused. */
size_t c_count_after(const struct action *action, size_t staged_count)
{
    return action->change == INSTALL ? staged_count + 1 : action->change == REMOVE ? staged_count - 1 : staged_count;
}

/* Puts a cluster at its place in rising part number. */
static void insert(struct table *table, const struct cluster *c)
{
    size_t i = table->count;
    while (i > 0 && table->clusters[i - 1].part > c->part)
        i--;
    memmove(&table->clusters[i + 1], &table->clusters[i], (table->count - i) * sizeof *c);
    table->clusters[i] = *c;
    table->clusters[i].stays = false;
    table->count++;
}

/* Applies an action that is not refused: an install gives mark 0, an update keeps the mark. */
static void apply(struct table *table, const struct action *action)
{
    size_t i = place_of(table, action->cluster.part);
    if (action->change == INSTALL) {
        insert(table, &action->cluster);
    } else if (action->change == UPDATE) {
        bool stays = table->clusters[i].stays;
        table->clusters[i] = action->cluster;
        table->clusters[i].stays = stays;
    } else {
        table->count--;
        memmove(&table->clusters[i], &table->clusters[i + 1], (table->count - i) * sizeof table->clusters[0]);
    }
}

/* Makes the staged table: the beginning table with the listed actions applied. */
void c_stage(const struct session *session, struct table *staged)
{
    memcpy(staged->clusters, session->beginning.clusters, session->beginning.count * sizeof staged->clusters[0]);
    staged->count = session->beginning.count;
    for (size_t i = 0; i < session->count; i++)
        apply(staged, &session->entries[i].action);
}
