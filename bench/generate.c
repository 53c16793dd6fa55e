/* Cluster lists, packages and lists of calls by chance, from a fixed seed. */
#include "generate.h"

#include <stdio.h>
#include <string.h>

/* ---- numbers and texts */

static uint32_t seed = 20261117;

uint32_t chance(uint32_t below)
{
    seed ^= seed << 13;
    seed ^= seed >> 17;
    seed ^= seed << 5;
    return seed % below;
}

/* Writes a list of up to 65 clusters with parts 10, 20, .. and versions near 1.0.0.0, of which not all needs are met. */
void chance_list(struct text *text)
{
    size_t count = chance(8) == 0 ? 60 + chance(6) : chance(7);
    bool marked = chance(2);
    text_clear(text);
    text_add(text, marked ? "stays,version,cluster,least,needs\n" : "cluster,needs,version,least\n");
    for (size_t i = 0; i < count; i++) {
        uint32_t needs = chance(300) == 0 ? 5 : chance(3) == 0 ? chance(5) : 0;
        for (uint32_t k = 0; k == 0 || k < needs; k++) {
            char need[20] = "", least[20] = "", part[20] = "", version[20] = "";
            if (k < needs) {
                snprintf(need, sizeof need, "%u", 10 * (1 + chance(8)));
                snprintf(least, sizeof least, "%u.0.0.%u", 1 + (chance(9) == 0), chance(2));
            }
            if (k == 0) {
                snprintf(part, sizeof part, "%zu", 10 * (i + 1));
                snprintf(version, sizeof version, "1.0.0.%u", chance(3));
            }
            if (marked)
                text_add(text, "%s,%s,%s,%s,%s\n", k > 0 ? "" : chance(4) ? "0" : "1", version, part, least, need);
            else
                text_add(text, "%s,%s,%s,%s\n", part, need, version, least);
        }
    }
}

struct package_plan chance_package(void)
{
    uint32_t part = chance(6) == 0 ? 5 : 10 * (1 + chance(8));
    size_t payload = chance(4) ? chance(40) : 0;
    return (struct package_plan){ (enum change)chance(3), part, chance(4), payload, chance(5), chance(9) == 0 };
}

/* Changes, removes or doubles a byte of a text from a place on. */
void damage(struct text *text, size_t from)
{
    static const uint8_t BYTES[] = ",\n.0123456789aZ\xff";
    size_t length = text->length - from;
    if (length == 0)
        return;
    size_t at = from + chance((uint32_t)length);
    uint32_t how = chance(3);
    if (how == 0) {
        text->bytes[at] = BYTES[chance(sizeof BYTES - 1)];
    } else if (how == 1) {
        memmove(text->bytes + at, text->bytes + at + 1, text->length - at - 1);
        text->length--;
    } else {
        uint8_t last = text->bytes[text->length - 1];
        memmove(text->bytes + at + 1, text->bytes + at, text->length - at - 1);
        text_add_bytes(text, &last, 1);
    }
}

/* ---- generated lists of calls: the C version's state says which call leads on */

/* Adds a row and makes its call on the generator's own state. */
static void make(struct generator *g, const uint32_t row[6])
{
    uint32_t answer[2];
    size_t before = g->script.word_count;
    if (row[0] == TRANSFER_DATA)
        script_block(&g->script, row[2], row[3], row[4], row[5]);
    else
        script_call(&g->script, (enum call)row[0], row[2]);
    struct list l = script_list(&g->script);
    l.words += before;
    l.word_count -= before;
    c_make_rows(&g->state, g->store, l, answer);
}

static void make_call(struct generator *g, enum call call, uint32_t first)
{
    make(g, (uint32_t[6]){ call, 0, first, 0, 0, 0 });
}

/* Gives an id of a package, or now and then one of none. */
static uint32_t chance_id(struct generator *g)
{
    struct transfers *t = &g->state.transfers;
    if (t->count == 0 || chance(12) == 0)
        return chance(5);
    return t->packages[chance((uint32_t)t->count)].id;
}

static uint32_t chance_n(void)
{
    static const uint32_t N[] = { 0, 1, 7, 1000, UINT32_MAX };
    return N[chance(5)];
}

/* Sends a package in two or three blocks, with a wrong counter or a block too many now and then, and checks it. */
static void send_package(struct generator *g)
{
    struct text *blocks = &g->script.blocks;
    size_t at = blocks->length;
    write_package(blocks, chance_package());
    if (chance(6) == 0)
        damage(blocks, at);
    size_t length = blocks->length - at;
    uint32_t id = (uint32_t)g->state.transfers.next;
    make_call(g, TRANSFER_START, (uint32_t)length + (chance(15) == 0));
    if (g->state.transfers.next == id && chance(5))
        return;
    size_t cut = 1 + chance((uint32_t)length - 1);
    uint32_t counter = 1 + (chance(20) == 0);
    make(g, (uint32_t[6]){ TRANSFER_DATA, 0, id, counter, (uint32_t)at, (uint32_t)cut });
    if (chance(10) == 0)
        make(g, (uint32_t[6]){ TRANSFER_DATA, 0, id, counter, (uint32_t)at, (uint32_t)cut });
    make(g, (uint32_t[6]){ TRANSFER_DATA, 0, id, 2, (uint32_t)(at + cut), (uint32_t)(length - cut) });
    make_call(g, TRANSFER_EXIT, id);
}

/* Ends the session, or processes or sends another package. */
static void make_in_ready(struct generator *g)
{
    if (chance(3))
        make_call(g, chance(3) == 0 ? REVERT : ACTIVATE, 0);
    else
        chance(2) ? make_call(g, PROCESS, chance_id(g)) : send_package(g);
}

/* Makes a call that the manager's state allows, so that the list gets on. */
static void make_allowed(struct generator *g)
{
    enum phase phase = g->state.phase;
    if (phase == IDLE)
        chance(2) ? make_call(g, PROCESS, chance_id(g)) : send_package(g);
    else if (phase == READY)
        make_in_ready(g);
    else if (phase == PROCESSING)
        chance(8) ? make_call(g, WORK, chance_n()) : make_call(g, CANCEL, chance_id(g));
    else if (phase == ACTIVATED || phase == ROLLED_BACK)
        make_call(g, chance(3) == 0 ? ROLLBACK : FINISH, 0);
    else if (phase == VERIFYING && chance(4) == 0)
        make_call(g, ROLLBACK, 0);
    else
        make_call(g, REPORT, chance(4) != 0);
}

/* Makes any call of those that the list is of. */
static void make_any(struct generator *g)
{
    enum call call = (enum call)chance(g->call_count);
    if (call == TRANSFER_DATA)
        make(g, (uint32_t[6]){ TRANSFER_DATA, 0, chance_id(g), chance(4), 0, chance((uint32_t)g->script.blocks.length + 1) });
    else if (call == TRANSFER_START)
        make_call(g, call, chance(4) == 0 ? chance_n() : chance(60));
    else if (call == REPORT)
        make_call(g, call, chance(2));
    else if (call == WORK)
        make_call(g, call, chance_n());
    else if (call == TRANSFER_EXIT || call == DELETE_TRANSFER || call == PROCESS || call == CANCEL || call == OLD_CANCEL)
        make_call(g, call, chance_id(g));
    else
        make_call(g, call, 0);
}

uint32_t chance_first(void)
{
    return chance(12) == 0 ? UINT32_MAX - chance(4) : chance(40) == 0 ? 0 : 1 + chance(5);
}

/* Generates a cluster list and a list of calls from it, now and then damaged. Half of the lists are of the twelve calls, the others of all
   sixteen; an old call comes in by make_any, or by the damage. */
void generate(struct generator *g, struct text *text, uint32_t first)
{
    script_clear(&g->script);
    g->call_count = chance(2) ? OLD_ACTIVATE : OLD_ROLLBACK + 1;
    chance_list(text);
    if (chance(10) == 0)
        damage(text, 0);
    if (c_load(&g->state, text->bytes, text->length, first, g->store))
        for (uint32_t calls = chance(120); calls > 0; calls--)
            chance(4) ? make_allowed(g) : make_any(g);
    if (g->script.word_count > 0 && chance(25) == 0)
        g->script.words[chance((uint32_t)g->script.word_count)] = chance(20);
    if (chance(50) == 0)
        g->script.word_count -= g->script.word_count > 0;
}
