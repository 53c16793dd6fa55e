/* The calls that are measured. */
#include "cases.h"

const struct state_size LARGE = { "large", 64, 4, 16 };
const struct state_size SMALL = { "small", 20, 1, 2 };

/* Stores in bytes: as short as the case allows, since Load clears them. */
enum { SHORT_STORE = 65536, MIDDLE_STORE = 2097152, LONG_STORE = 9437184, PAYLOAD = 16 };

/* ---- ways to a state */

/* Starts a package and sends its text in one block; gives its id. */
static uint32_t send(struct plan *plan, struct package_plan package)
{
    size_t at = plan->script.blocks.length;
    write_package(&plan->script.blocks, package);
    size_t length = plan->script.blocks.length - at;
    script_call(&plan->script, TRANSFER_START, (uint32_t)length);
    script_block(&plan->script, plan->next_id, 1, at, length);
    return plan->next_id++;
}

static void send_and_exit(struct plan *plan, struct package_plan package)
{
    script_call(&plan->script, TRANSFER_EXIT, send(plan, package));
}

/* Plans an update of the cluster at a place of the table. */
static struct package_plan update_of(const struct plan *plan, size_t place)
{
    return (struct package_plan){ UPDATE, (uint32_t)(10 * (place + 1)), 1, PAYLOAD, plan->size->needs, false };
}

/* Transfers updates of the last clusters, which are found last, with ids 1, 2, .. */
static void transfer(struct plan *plan, size_t count)
{
    for (size_t i = 0; i < count; i++)
        send_and_exit(plan, update_of(plan, plan->size->clusters - 1 - i));
}

/* Processes a package to its end. */
static void process(struct plan *plan, uint32_t id)
{
    script_call(&plan->script, PROCESS, id);
    script_call(&plan->script, WORK, UINT32_MAX);
}

static void report(struct plan *plan, bool good) { script_call(&plan->script, REPORT, good); }
static void call(struct plan *plan, enum call which) { script_call(&plan->script, which, 0); }

/* Transfers all packages and processes all but the last: Ready, with a session's list as long as it can be beside another package. */
static void ready(struct plan *plan)
{
    transfer(plan, plan->size->packages);
    for (uint32_t id = 1; id < plan->next_id - 1; id++)
        process(plan, id);
}

/* Leads to the same without the last package. */
static void ready_for_one_more(struct plan *plan)
{
    transfer(plan, plan->size->packages - 1);
    for (uint32_t id = 1; id < plan->next_id; id++)
        process(plan, id);
}

/* Leads on to Verifying. */
static void verifying(struct plan *plan)
{
    ready(plan);
    call(plan, ACTIVATE);
    report(plan, true);
}

static void begin_turns(struct plan *plan) { plan->set_up_words = plan->script.word_count; }

/* Makes one call over and over. */
static void repeat(struct plan *plan, size_t turns, enum call which, uint32_t first)
{
    begin_turns(plan);
    for (size_t i = 0; i < turns; i++)
        script_call(&plan->script, which, first);
}

/* Makes a call and then a bad report, over and over. */
static void repeat_with_bad_report(struct plan *plan, size_t turns, enum call which)
{
    begin_turns(plan);
    for (size_t i = 0; i < turns; i++) {
        call(plan, which);
        report(plan, false);
    }
}

/* ---- transfers */

static void start_refused(struct plan *plan, size_t turns)
{
    ready(plan);
    repeat(plan, turns, TRANSFER_START, UINT32_MAX);
}

static void start_refused_in_idle(struct plan *plan, size_t turns)
{
    transfer(plan, plan->size->packages);
    repeat(plan, turns, TRANSFER_START, UINT32_MAX);
}

static void start_and_delete(struct plan *plan, size_t turns)
{
    ready_for_one_more(plan);
    begin_turns(plan);
    for (size_t i = 0; i < turns; i++) {
        script_call(&plan->script, TRANSFER_START, PAYLOAD);
        script_call(&plan->script, DELETE_TRANSFER, plan->next_id++);
    }
}

/* Sends blocks of one length into the last package. */
static void send_blocks(struct plan *plan, size_t turns, size_t length)
{
    ready_for_one_more(plan);
    size_t at = plan->script.blocks.length;
    for (size_t i = 0; i < length; i++)
        text_add_bytes(&plan->script.blocks, &(uint8_t){ (uint8_t)(i * 7) }, 1);
    script_call(&plan->script, TRANSFER_START, (uint32_t)(turns * length));
    begin_turns(plan);
    for (size_t i = 0; i < turns; i++)
        script_block(&plan->script, plan->next_id, (uint32_t)i + 1, at, length);
}

static void data_1(struct plan *plan, size_t turns) { send_blocks(plan, turns, 1); }
static void data_4096(struct plan *plan, size_t turns) { send_blocks(plan, turns, 4096); }
static void data_262144(struct plan *plan, size_t turns) { send_blocks(plan, turns, 262144); }

static void exit_refused(struct plan *plan, size_t turns)
{
    ready_for_one_more(plan);
    script_call(&plan->script, TRANSFER_START, PAYLOAD);
    repeat(plan, turns, TRANSFER_EXIT, plan->next_id);
}

/* Starts a package, sends it, checks it where wanted, and deletes it. */
static void send_and_delete(struct plan *plan, size_t turns, bool with_exit)
{
    ready_for_one_more(plan);
    size_t at = plan->script.blocks.length;
    write_package(&plan->script.blocks, update_of(plan, 0));
    size_t length = plan->script.blocks.length - at;
    begin_turns(plan);
    for (size_t i = 0; i < turns; i++) {
        script_call(&plan->script, TRANSFER_START, (uint32_t)length);
        script_block(&plan->script, plan->next_id, 1, at, length);
        if (with_exit)
            script_call(&plan->script, TRANSFER_EXIT, plan->next_id);
        script_call(&plan->script, DELETE_TRANSFER, plan->next_id++);
    }
}

static void transferred_and_deleted(struct plan *plan, size_t turns) { send_and_delete(plan, turns, true); }
static void sent_and_deleted(struct plan *plan, size_t turns) { send_and_delete(plan, turns, false); }

/* ---- processing */

static void process_and_cancel(struct plan *plan, size_t turns)
{
    ready(plan);
    begin_turns(plan);
    for (size_t i = 0; i < turns; i++) {
        script_call(&plan->script, PROCESS, plan->next_id - 1);
        script_call(&plan->script, CANCEL, plan->next_id - 1);
        script_call(&plan->script, WORK, 0);
    }
}

/* Begins to process the last package. */
static void processing(struct plan *plan)
{
    ready(plan);
    script_call(&plan->script, PROCESS, plan->next_id - 1);
}

static void work_0(struct plan *plan, size_t turns)
{
    processing(plan);
    repeat(plan, turns, WORK, 0);
}

/* Works over a long payload, so many bytes at each turn; a byte is left at the end. */
static void work_over(struct plan *plan, size_t turns, size_t length)
{
    ready_for_one_more(plan);
    struct package_plan package = update_of(plan, plan->size->packages);
    package.payload = turns * length + 1;
    send_and_exit(plan, package);
    script_call(&plan->script, PROCESS, plan->next_id - 1);
    repeat(plan, turns, WORK, (uint32_t)length);
}

static void work_1(struct plan *plan, size_t turns) { work_over(plan, turns, 1); }
static void work_4096(struct plan *plan, size_t turns) { work_over(plan, turns, 4096); }

static void cancel_again(struct plan *plan, size_t turns)
{
    processing(plan);
    repeat(plan, turns, CANCEL, plan->next_id - 1);
}

/* ---- the session */

static void revert(struct plan *plan, size_t turns)
{
    ready(plan);
    repeat_with_bad_report(plan, turns, REVERT);
}

static void activate(struct plan *plan, size_t turns)
{
    ready(plan);
    repeat_with_bad_report(plan, turns, ACTIVATE);
}

static void rollback(struct plan *plan, size_t turns)
{
    verifying(plan);
    repeat_with_bad_report(plan, turns, ROLLBACK);
}

static void finish_refused(struct plan *plan, size_t turns)
{
    ready(plan);
    repeat(plan, turns, FINISH, 0);
}

static void report_verifying(struct plan *plan, size_t turns)
{
    verifying(plan);
    repeat(plan, turns, REPORT, false);
}

static void report_cleaning_up(struct plan *plan, size_t turns)
{
    verifying(plan);
    report(plan, true);
    call(plan, FINISH);
    repeat(plan, turns, REPORT, false);
}

/* Makes whole sessions of one package, which is rolled back, so that the next finds the same table; the others stay transferred. */
static void whole_session(struct plan *plan, size_t turns)
{
    transfer(plan, plan->size->packages - 1);
    begin_turns(plan);
    for (size_t i = 0; i < turns; i++) {
        send_and_exit(plan, update_of(plan, 0));
        process(plan, plan->next_id - 1);
        call(plan, ACTIVATE);
        report(plan, true);
        call(plan, ROLLBACK);
        report(plan, true);
        call(plan, FINISH);
        report(plan, true);
    }
}

/* ---- the table */

const struct measured_case CASES[] = {
    { "TransferStart, refused", start_refused, 4000, 1, 0, SHORT_STORE, { REFUSED } },
    { "TransferStart, refused, in Idle", start_refused_in_idle, 4000, 1, 0, SHORT_STORE, { REFUSED } },
    { "TransferStart, DeleteTransfer", start_and_delete, 2000, 2, 0, SHORT_STORE, { ID_GIVEN, DONE } },
    { "TransferData, 1 byte", data_1, 4000, 1, 0, SHORT_STORE, { DONE } },
    { "TransferData, 4096 bytes", data_4096, 400, 1, 4096, MIDDLE_STORE, { DONE } },
    { "TransferData, 262144 bytes", data_262144, 32, 1, 262144, LONG_STORE, { DONE } },
    { "TransferExit, refused", exit_refused, 4000, 1, 0, SHORT_STORE, { REFUSED } },
    { "Start, Data, Delete", sent_and_deleted, 1500, 3, 0, SHORT_STORE, { ID_GIVEN, DONE, DONE } },
    { "Start, Data, Exit, Delete", transferred_and_deleted, 1000, 4, 0, SHORT_STORE, { ID_GIVEN, DONE, DONE, DONE } },
    { "Process, Cancel, Work", process_and_cancel, 1500, 3, 0, SHORT_STORE, { DONE, DONE, CANCELLED } },
    { "Work(0)", work_0, 4000, 1, 0, SHORT_STORE, { WORKING } },
    { "Work(1)", work_1, 4000, 1, 0, SHORT_STORE, { WORKING } },
    { "Work(4096)", work_4096, 400, 1, 0, MIDDLE_STORE, { WORKING } },
    { "Cancel", cancel_again, 4000, 1, 0, SHORT_STORE, { DONE } },
    { "Revert, Report(bad)", revert, 2000, 2, 0, SHORT_STORE, { DONE, NOT_ABLE_TO_REVERT } },
    { "Activate, Report(bad)", activate, 1000, 2, 0, SHORT_STORE, { DONE, PRE_ACTIVATION_FAILED } },
    { "Rollback, Report(bad)", rollback, 2000, 2, 0, SHORT_STORE, { DONE, NOT_ABLE_TO_ROLLBACK } },
    { "Finish, refused", finish_refused, 4000, 1, 0, SHORT_STORE, { REFUSED } },
    { "Report(bad) in Verifying", report_verifying, 4000, 1, 0, SHORT_STORE, { VERIFICATION_FAILED } },
    { "Report(bad) in CleaningUp", report_cleaning_up, 4000, 1, 0, SHORT_STORE, { CLEANING_FAILED } },
    { "a session of eleven calls", whole_session, 300, 11, 0, SHORT_STORE,
        { ID_GIVEN, DONE, DONE, DONE, WORK_PROCESSED, DONE, DONE, DONE, DONE, DONE, DONE } },
};
const size_t CASE_COUNT = sizeof CASES / sizeof CASES[0];
