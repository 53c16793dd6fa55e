/* The old four-state calls, as a layer above the twelve: 0 where the call was begun, else 1, 2 or 4. */
#include "state.h"

/* Begins an activation if all needs are met in the staged table. */
static uint32_t old_activate(struct state *s, struct store store)
{
    struct table staged;
    if (s->phase == IDLE)
        return 1;
    if (s->phase != READY)
        return 2;
    c_stage(&s->session, &staged);
    if (!c_needs_met(&staged))
        return 4;
    c_call(s, store, ACTIVATE, 0, 0, NULL, 0);
    return 0;
}

/* Makes one of the four old calls. */
uint32_t c_old_call(struct state *s, struct store store, enum call call, uint32_t id)
{
    if (!c_sound(s, store.length))
        return call == OLD_CANCEL ? 1 : 2;
    if (call == OLD_ACTIVATE)
        return old_activate(s, store);
    if (call == OLD_CANCEL) {
        if (s->phase != PROCESSING)
            return 2;
        return c_call(s, store, CANCEL, id, 0, NULL, 0).kind == DONE ? 0 : 1;
    }
    if (s->phase == IDLE || (call == OLD_ROLLBACK && s->phase == READY))
        return 1;
    return c_call(s, store, call == OLD_REVERT ? REVERT : ROLLBACK, 0, 0, NULL, 0).kind == DONE ? 0 : 2;
}
