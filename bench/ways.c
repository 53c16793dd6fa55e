/* The ways in which a list of calls is made. */
#include "ways.h"
#include "measured.h"

const char *const WAY_NAMES[WAYS] = { "C", "measured_calls", "wozkindu_load_and_run" };

bool makes(enum way way, struct list l)
{
    for (size_t i = 0; way == BY_CALLS && i < l.word_count; i += 6)
        if (l.words[i] >= OLD_ACTIVATE && l.words[i] <= OLD_ROLLBACK)
            return false;
    return true;
}

uint32_t run_way(enum way way, struct text text, uint32_t first, struct store store, struct list l, uint32_t *answers, size_t room)
{
    if (way == IN_C)
        return c_load_and_run(text.bytes, text.length, first, store, l, answers, room);
    return (way == BY_CALLS ? measured_calls : wozkindu_load_and_run)(text.bytes, text.length, first, store.bytes, store.length, l.words,
        l.word_count, l.bytes, l.byte_count, answers, room);
}
