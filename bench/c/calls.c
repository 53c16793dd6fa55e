/* Load and the twelve changing calls on a state by pointer. */
#include "state.h"

#include <string.h>

static struct answer answer(uint32_t kind) { return (struct answer){ kind, 0 }; }
static struct answer refuse(uint32_t number) { return (struct answer){ REFUSED, number }; }

/* Loads: reads the list, fills the store with 0 and gives the state Idle; false is refusal 20. */
bool c_load(struct state *s, const uint8_t *list, size_t list_length, uint32_t first, struct store store)
{
    struct table table;
    if (store.length > STORE_MOST || first == 0 || !c_read_list(list, list_length, &table))
        return false;
    memset(s, 0, sizeof *s);
    memcpy(s->session.beginning.clusters, table.clusters, table.count * sizeof table.clusters[0]);
    s->session.beginning.count = table.count;
    s->transfers.next = first;
    memset(store.bytes, 0, store.length);
    return true;
}

/* ---- packages and their areas */

/* Gives the package with an id, and where its area starts; NULL where there is none. */
static struct package *package_with(struct transfers *t, uint32_t id, size_t *start)
{
    size_t at = 0;
    for (size_t i = 0; i < t->count; i++) {
        if (t->packages[i].id == id) {
            *start = at;
            return &t->packages[i];
        }
        at += t->packages[i].size;
    }
    return NULL;
}

/* Gives the package that is processing, of which there is one, and where its area starts. */
static struct package *processing_package(struct transfers *t, size_t *start)
{
    struct package *p = t->packages;
    *start = 0;
    while (p->state != PACKAGE_PROCESSING)
        *start += p++->size;
    return p;
}

/* Adds up the declared sizes. */
static size_t declared(const struct transfers *t)
{
    size_t sum = 0;
    for (size_t i = 0; i < t->count; i++)
        sum += t->packages[i].size;
    return sum;
}

/* Deletes the package with an id, or with id 0 all that are Processed: moves later areas down and fills what gets free with 0. */
static void delete_packages(struct transfers *t, struct store store, uint32_t id)
{
    size_t from = 0, to = 0, kept = 0;
    for (size_t i = 0; i < t->count; i++) {
        struct package p = t->packages[i];
        if (id == 0 ? p.state != PROCESSED : p.id != id) {
            if (from != to)
                memmove(store.bytes + to, store.bytes + from, p.size);
            to += p.size;
            t->packages[kept++] = p;
        }
        from += p.size;
    }
    t->count = kept;
    memset(store.bytes + to, 0, from - to);
}

/* ---- transfers */

/* Gives the next id to a package of a size. */
static struct answer transfer_start(struct state *s, struct store store, uint32_t size)
{
    struct transfers *t = &s->transfers;
    if (size == 0)
        return refuse(INCORRECT_SIZE);
    if (t->count == PACKAGES_MOST)
        return refuse(TRANSFERS_FULL);
    if (size > store.length - declared(t))
        return refuse(INSUFFICIENT_MEMORY);
    if (t->next > UINT32_MAX)
        return refuse(IDS_SPENT);
    uint32_t id = (uint32_t)t->next++;
    t->packages[t->count++] = (struct package){ id, size, 0, 0, TRANSFERRING };
    return (struct answer){ ID_GIVEN, id };
}

/* Writes a block behind the bytes received so far. */
static struct answer transfer_data(struct state *s, struct store store, uint32_t id, uint32_t counter, const uint8_t *block, size_t length)
{
    size_t start;
    struct package *p = package_with(&s->transfers, id, &start);
    if (!p)
        return refuse(INVALID_TRANSFER_ID);
    if (p->state != TRANSFERRING)
        return refuse(WRONG_PACKAGE_STATE);
    if (counter != p->blocks + 1)
        return refuse(INCORRECT_BLOCK);
    if (length == 0 || length > p->size - p->received)
        return refuse(INCORRECT_SIZE);
    memcpy(store.bytes + start + p->received, block, length);
    p->received += (uint32_t)length;
    p->blocks++;
    return answer(DONE);
}

/* Checks a package that has come whole. */
static struct answer transfer_exit(struct state *s, struct store store, uint32_t id)
{
    size_t start;
    struct package *p = package_with(&s->transfers, id, &start);
    if (!p)
        return refuse(INVALID_TRANSFER_ID);
    if (p->state != TRANSFERRING)
        return refuse(WRONG_PACKAGE_STATE);
    if (p->received != p->size)
        return refuse(INSUFFICIENT_DATA);
    struct package_text text = c_read_package(store.bytes + start, p->size);
    if (text.refusal)
        return refuse(text.refusal);
    p->state = TRANSFERRED;
    return answer(DONE);
}

/* Deletes a package that is not processed. */
static struct answer delete_transfer(struct state *s, struct store store, uint32_t id)
{
    size_t start;
    struct package *p = package_with(&s->transfers, id, &start);
    if (!p)
        return refuse(INVALID_TRANSFER_ID);
    if (p->state == PACKAGE_PROCESSING || p->state == PROCESSED)
        return refuse(WRONG_PACKAGE_STATE);
    delete_packages(&s->transfers, store, id);
    return answer(DONE);
}

/* ---- processing */

/* Counts the clusters of the staged table. */
static size_t staged_count(const struct session *session)
{
    size_t count = session->beginning.count;
    for (size_t i = 0; i < session->count; i++)
        count = c_count_after(&session->entries[i].action, count);
    return count;
}

/* Begins to process a package: keeps its action, payload and sum. */
static struct answer process(struct state *s, struct store store, uint32_t id)
{
    size_t start;
    if (s->phase == PROCESSING)
        return refuse(SERVICE_BUSY);
    if (s->phase != IDLE && s->phase != READY)
        return refuse(OPERATION_NOT_PERMITTED);
    struct package *p = package_with(&s->transfers, id, &start);
    if (!p)
        return refuse(INVALID_TRANSFER_ID);
    if (p->state != TRANSFERRED)
        return refuse(WRONG_PACKAGE_STATE);
    struct package_text text = c_read_package(store.bytes + start, p->size);
    if (!text.refusal)
        text.refusal = c_touched_or_refused(&s->session, s->session.count, &text.action, staged_count(&s->session));
    if (text.refusal)
        return refuse(text.refusal);
    s->work = (struct work){ .action = text.action, .start = text.start, .count = text.count, .sum = text.sum };
    s->phase = PROCESSING;
    p->state = PACKAGE_PROCESSING;
    return answer(DONE);
}

/* Ends Processing: the package's next state, and an answer. */
static struct answer end_processing(struct state *s, struct package *p, enum package_state next, uint32_t kind)
{
    if (next == PROCESSED)
        s->session.entries[s->session.count++] = (struct entry){ p->id, s->work.action };
    p->state = next;
    memset(&s->work, 0, sizeof s->work);
    s->phase = s->session.count > 0 ? READY : IDLE;
    return answer(kind);
}

/* Takes the next payload bytes into the sum, and ends Processing where none are left or a cancel is noted. */
static struct answer work(struct state *s, struct store store, uint32_t n)
{
    struct work *w = &s->work;
    size_t start;
    if (s->phase != PROCESSING)
        return refuse(OPERATION_NOT_PERMITTED);
    struct package *p = processing_package(&s->transfers, &start);
    if (w->cancel_noted)
        return end_processing(s, p, TRANSFERRED, CANCELLED);
    uint32_t left = w->count - w->done;
    uint32_t taken = n < left ? n : left;
    w->running_sums = c_sum_by_table(w->running_sums, store.bytes + start + w->start + w->done, taken);
    w->done += taken;
    if (taken < left)
        return answer(WORKING);
    if (256 * w->running_sums.c1 + w->running_sums.c0 != w->sum)
        return end_processing(s, p, TRANSFERRED, INCONSISTENT);
    return end_processing(s, p, PROCESSED, WORK_PROCESSED);
}

/* Notes a cancel. */
static struct answer cancel(struct state *s, uint32_t id)
{
    size_t start;
    if (s->phase != PROCESSING)
        return refuse(OPERATION_NOT_PERMITTED);
    if (processing_package(&s->transfers, &start)->id != id)
        return refuse(INVALID_TRANSFER_ID);
    s->work.cancel_noted = true;
    return answer(DONE);
}

/* ---- the session */

/* Moves to another phase and answers; the origin is kept in RollingBack and CleaningUp alone. */
static struct answer move_to(struct state *s, enum phase next, enum phase origin, uint32_t kind)
{
    s->phase = next;
    s->origin = origin;
    return answer(kind);
}

/* Makes Revert, Activate, Rollback or Finish, which move to another phase and change nothing else. */
static struct answer session_call(struct state *s, enum call call)
{
    enum phase now = s->phase;
    if (call == REVERT && now == READY)
        return move_to(s, CLEANING_UP, READY, DONE);
    if (call == ACTIVATE && now == READY)
        return move_to(s, ACTIVATING, IDLE, DONE);
    if (call == ROLLBACK && (now == VERIFYING || now == ACTIVATED))
        return move_to(s, ROLLING_BACK, now, DONE);
    if (call == FINISH && (now == ACTIVATED || now == ROLLED_BACK))
        return move_to(s, CLEANING_UP, now, DONE);
    return refuse(OPERATION_NOT_PERMITTED);
}

/* Answers a report in Activating: an unmet need comes before a bad report. */
static struct answer report_activating(struct state *s, bool good)
{
    struct table staged;
    c_stage(&s->session, &staged);
    if (!c_needs_met(&staged))
        return move_to(s, READY, IDLE, MISSING_DEPENDENCIES);
    return good ? move_to(s, VERIFYING, IDLE, DONE) : move_to(s, READY, IDLE, PRE_ACTIVATION_FAILED);
}

/* Answers a report in CleaningUp: a good one begins the next session and deletes the Processed packages. */
static struct answer report_cleaning_up(struct state *s, struct store store, bool good)
{
    if (!good)
        return s->origin == READY ? move_to(s, READY, IDLE, NOT_ABLE_TO_REVERT) : answer(CLEANING_FAILED);
    if (s->origin == ACTIVATED) {
        struct table staged;
        c_stage(&s->session, &staged);
        memcpy(s->session.beginning.clusters, staged.clusters, staged.count * sizeof staged.clusters[0]);
        s->session.beginning.count = staged.count;
    }
    s->session.count = 0;
    delete_packages(&s->transfers, store, 0);
    return move_to(s, IDLE, IDLE, DONE);
}

/* Makes Report by the phase. */
static struct answer report(struct state *s, struct store store, bool good)
{
    switch (s->phase) {
    case ACTIVATING:
        return report_activating(s, good);
    case VERIFYING:
        return good ? move_to(s, ACTIVATED, IDLE, DONE) : answer(VERIFICATION_FAILED);
    case ROLLING_BACK:
        return good ? move_to(s, ROLLED_BACK, IDLE, DONE) : move_to(s, s->origin, IDLE, NOT_ABLE_TO_ROLLBACK);
    case CLEANING_UP:
        return report_cleaning_up(s, store, good);
    default:
        return refuse(OPERATION_NOT_PERMITTED);
    }
}

/* ---- the one entry */

/* Makes one of the twelve calls after the check of soundness. */
struct answer c_call(struct state *s, struct store store, enum call call, uint32_t first, uint32_t second, const uint8_t *block,
    size_t length)
{
    if (!c_sound(s, store.length))
        return refuse(BAD_STATE);
    switch (call) {
    case TRANSFER_START:
        return transfer_start(s, store, first);
    case TRANSFER_DATA:
        return transfer_data(s, store, first, second, block, length);
    case TRANSFER_EXIT:
        return transfer_exit(s, store, first);
    case DELETE_TRANSFER:
        return delete_transfer(s, store, first);
    case PROCESS:
        return process(s, store, first);
    case WORK:
        return work(s, store, first);
    case CANCEL:
        return cancel(s, first);
    case REPORT:
        return report(s, store, first == 1);
    default:
        return session_call(s, call);
    }
}
