/* Lists of calls in rows of six words (docs/CALL-LISTS.md). */
#include "state.h"

enum { ROW_WORDS = 6 };

/* Says whether a row has the words of its call and its block lies within the bytes. */
static bool row_well_formed(const uint32_t *row, size_t byte_count)
{
    uint32_t call = row[0];
    bool no_number = call == REVERT || call == ACTIVATE || call == ROLLBACK || call == FINISH || call == OLD_ACTIVATE || call == OLD_REVERT
        || call == OLD_ROLLBACK;
    if (call > OLD_ROLLBACK || row[1] != 0 || (uint64_t)row[4] + row[5] > byte_count)
        return false;
    if (call != TRANSFER_DATA && (row[3] != 0 || row[4] != 0 || row[5] != 0))
        return false;
    return !(no_number && row[2] != 0) && !(call == REPORT && row[2] > 1);
}

/* Says whether the words are rows of calls. */
bool c_well_formed(struct list list)
{
    if (list.word_count % ROW_WORDS != 0)
        return false;
    for (size_t i = 0; i < list.word_count; i += ROW_WORDS)
        if (!row_well_formed(list.words + i, list.byte_count))
            return false;
    return true;
}

/* Makes the calls of well-formed rows one after the other, two words of answer for each. */
void c_make_rows(struct state *s, struct store store, struct list list, uint32_t *answers)
{
    for (size_t i = 0; i < list.word_count; i += ROW_WORDS) {
        const uint32_t *row = list.words + i;
        struct answer given = { OLD_ANSWER, 0 };
        if (row[0] >= OLD_ACTIVATE)
            given.value = c_old_call(s, store, (enum call)row[0], row[2]);
        else
            given = c_call(s, store, (enum call)row[0], row[2], row[3], list.bytes + row[4], row[5]);
        *answers++ = given.kind;
        *answers++ = given.value;
    }
}

/* Loads and makes a list of calls: gives 0, or 256 malformed, 257 too little room, 20 bad Load. */
uint32_t c_load_and_run(const uint8_t *text, size_t text_length, uint32_t first, struct store store, struct list list, uint32_t *answers,
    size_t room)
{
    static struct state s;
    if (!c_well_formed(list))
        return 256;
    if (list.word_count / 3 > room)
        return 257;
    if (!c_load(&s, text, text_length, first, store))
        return BAD_LOAD;
    c_make_rows(&s, store, list, answers);
    return 0;
}
