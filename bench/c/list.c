/* Reads a cluster list into a table. */
#include "text.h"

enum { CLUSTER, VERSION, NEEDS, LEAST, MARK };
static const char *const NAMES[] = { "cluster", "version", "needs", "least", "stays" };

/* Adds a need to the last cluster. */
static bool add_need(struct table *table, struct need need)
{
    if (table->count == 0)
        return false;
    struct cluster *last = &table->clusters[table->count - 1];
    if (last->need_count == NEEDS_MOST)
        return false;
    last->needs[last->need_count++] = need;
    return true;
}

/* Adds the cluster of a line, in rising part number. */
static bool begin_cluster(const struct line *line, const size_t *columns, bool marked, struct table *table)
{
    uint32_t last = table->count > 0 ? table->clusters[table->count - 1].part : 0;
    uint32_t mark = 0;
    if (table->count == CLUSTERS_MOST)
        return false;
    struct cluster *c = &table->clusters[table->count];
    if (!c_read_number(line->fields[columns[CLUSTER]], UINT32_MAX, &c->part) || c->part <= last)
        return false;
    if (!c_read_version(line->fields[columns[VERSION]], &c->version))
        return false;
    if (marked && !c_read_number(line->fields[columns[MARK]], 1, &mark))
        return false;
    c->need_count = 0;
    c->stays = mark == 1;
    table->count++;
    return true;
}

/* Reads a value line: a cluster with or without a need, or a further need of the cluster above. */
static bool read_value_line(const struct line *line, const size_t *columns, bool marked, struct table *table)
{
    struct need need;
    bool filled;
    bool begins = line->fields[columns[CLUSTER]].length > 0 || line->fields[columns[VERSION]].length > 0;
    if (!c_read_need(line->fields[columns[NEEDS]], line->fields[columns[LEAST]], &filled, &need))
        return false;
    if (begins && !begin_cluster(line, columns, marked, table))
        return false;
    if (!begins && (!filled || (marked && line->fields[columns[MARK]].length > 0)))
        return false;
    return !filled || add_need(table, need);
}

/* Reads a list of four names or five; false where it is ill-formed. */
bool c_read_list(const uint8_t *text, size_t length, struct table *table)
{
    struct line line;
    size_t columns[5];
    size_t at = 0;
    table->count = 0;
    if (!c_read_line(text, length, &at, &line) || line.count < 4 || line.count > 5)
        return false;
    size_t names = line.count;
    if (!c_find_columns(&line, NAMES, names, columns))
        return false;
    while (at < length) {
        if (!c_read_line(text, length, &at, &line) || line.count != names)
            return false;
        if (!read_value_line(&line, columns, names == 5, table))
            return false;
    }
    return true;
}
