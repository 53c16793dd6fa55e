/* Plays the calls of a first update (docs/FIRST-UPDATE.md) and prints each with its answer.

   The calls are a table. They are put into rows of words, with their blocks one behind the other in a byte string, and handed over as one
   list; the answers come back as two words for each call. */
#include <stdbool.h>
#include <stdio.h>
#include <stdlib.h>
#include <string.h>

#include "wozkindu.h"

#define COUNT_OF(array) (sizeof(array) / sizeof((array)[0]))

/* The bytes of a string literal, without the 0 behind them. */
#define TEXT_LENGTH(text) (sizeof(text) - 1)

/* The truck's table: part 20 in version 1.0.4.0, without needs. */
#define CLUSTER_LIST "cluster,version,needs,least\n20,1.0.4.0,,\n"

/* Three packages. The first, which is sent in two blocks, installs part 30, which needs part 20 in version 1.0.4.0 or above; the second
   updates part 20; the third removes part 20, which part 30 needs. */
#define PACKAGE_NAMES "action,cluster,version,payload,sum,needs,least\n"
#define INSTALL_BEGIN PACKAGE_NAMES "install,30,1.0.0.0,5,51440,"
#define INSTALL_END "20,1.0.4.0\n\nabcde"
#define UPDATE PACKAGE_NAMES "update,20,1.1.0.0,1,24929,,\n\na"
#define REMOVE PACKAGE_NAMES "remove,20,,0,0,,\n\n"

enum {
    STORE_LENGTH = 400,
    BLOCKS_LENGTH = 400
};

/* TransferStart gives rising ids from the first on. */
enum {
    FIRST_ID = 1,
    INSTALL_ID = FIRST_ID,
    UPDATE_ID,
    REMOVE_ID
};

struct call {
    enum wozkindu_call number;
    uint32_t first;
    uint32_t second;
    const char *block;
    uint32_t block_length;
};

#define CALL(name) {.number = WOZKINDU_CALL_##name}
#define CALL_WITH(name, argument) {.number = WOZKINDU_CALL_##name, .first = (argument)}
#define SEND(id, counter, text) \
    {.number = WOZKINDU_CALL_TRANSFER_DATA, .first = (id), .second = (counter), .block = (text), .block_length = TEXT_LENGTH(text)}

static const struct call calls[] = {
    /* Part 30 is installed. */
    CALL_WITH(TRANSFER_START, TEXT_LENGTH(INSTALL_BEGIN) + TEXT_LENGTH(INSTALL_END)),
    SEND(INSTALL_ID, 1, INSTALL_BEGIN),
    SEND(INSTALL_ID, 2, INSTALL_END),
    CALL_WITH(TRANSFER_EXIT, INSTALL_ID),
    CALL_WITH(PROCESS, INSTALL_ID),
    CALL_WITH(WORK, 2),
    CALL_WITH(WORK, 100),
    CALL(ACTIVATE),
    CALL_WITH(REPORT, WOZKINDU_REPORT_GOOD),
    CALL_WITH(REPORT, WOZKINDU_REPORT_GOOD),
    CALL(FINISH),
    CALL_WITH(REPORT, WOZKINDU_REPORT_GOOD),
    /* Part 20 is updated, and the update is rolled back. */
    CALL_WITH(TRANSFER_START, TEXT_LENGTH(UPDATE)),
    SEND(UPDATE_ID, 1, UPDATE),
    CALL_WITH(TRANSFER_EXIT, UPDATE_ID),
    CALL_WITH(PROCESS, UPDATE_ID),
    CALL_WITH(WORK, 1),
    CALL(ACTIVATE),
    CALL_WITH(REPORT, WOZKINDU_REPORT_GOOD),
    CALL(ROLLBACK),
    CALL_WITH(REPORT, WOZKINDU_REPORT_GOOD),
    CALL(FINISH),
    CALL_WITH(REPORT, WOZKINDU_REPORT_GOOD),
    /* Part 20 cannot be removed while part 30 needs it: the session is reverted. */
    CALL_WITH(TRANSFER_START, TEXT_LENGTH(REMOVE)),
    SEND(REMOVE_ID, 1, REMOVE),
    CALL_WITH(TRANSFER_EXIT, REMOVE_ID),
    CALL_WITH(PROCESS, REMOVE_ID),
    CALL_WITH(WORK, 0),
    CALL(ACTIVATE),
    CALL_WITH(REPORT, WOZKINDU_REPORT_GOOD),
    CALL(REVERT),
    CALL_WITH(REPORT, WOZKINDU_REPORT_GOOD),
    /* Finish is not allowed now. */
    CALL(FINISH),
};

static const char *const call_names[] = {
    [WOZKINDU_CALL_TRANSFER_START] = "TransferStart",
    [WOZKINDU_CALL_TRANSFER_DATA] = "TransferData",
    [WOZKINDU_CALL_TRANSFER_EXIT] = "TransferExit",
    [WOZKINDU_CALL_DELETE_TRANSFER] = "DeleteTransfer",
    [WOZKINDU_CALL_PROCESS] = "Process",
    [WOZKINDU_CALL_WORK] = "Work",
    [WOZKINDU_CALL_CANCEL] = "Cancel",
    [WOZKINDU_CALL_REVERT] = "Revert",
    [WOZKINDU_CALL_ACTIVATE] = "Activate",
    [WOZKINDU_CALL_ROLLBACK] = "Rollback",
    [WOZKINDU_CALL_FINISH] = "Finish",
    [WOZKINDU_CALL_REPORT] = "Report",
    [WOZKINDU_CALL_OLD_ACTIVATE] = "old Activate",
    [WOZKINDU_CALL_OLD_CANCEL] = "old Cancel",
    [WOZKINDU_CALL_OLD_REVERT] = "old Revert",
    [WOZKINDU_CALL_OLD_ROLLBACK] = "old Rollback",
};

static const char *const answer_names[] = {
    [WOZKINDU_ANSWER_ID] = "id",
    [WOZKINDU_ANSWER_DONE] = "Done",
    [WOZKINDU_ANSWER_WORKING] = "Working",
    [WOZKINDU_ANSWER_PROCESSED] = "Processed",
    [WOZKINDU_ANSWER_CANCELLED] = "Cancelled",
    [WOZKINDU_ANSWER_INCONSISTENT] = "Inconsistent",
    [WOZKINDU_ANSWER_PRE_ACTIVATION_FAILED] = "PreActivationFailed",
    [WOZKINDU_ANSWER_MISSING_DEPENDENCIES] = "MissingDependencies",
    [WOZKINDU_ANSWER_VERIFICATION_FAILED] = "VerificationFailed",
    [WOZKINDU_ANSWER_NOT_ABLE_TO_ROLLBACK] = "NotAbleToRollback",
    [WOZKINDU_ANSWER_NOT_ABLE_TO_REVERT] = "NotAbleToRevert",
    [WOZKINDU_ANSWER_CLEANING_FAILED] = "CleaningFailed",
    [WOZKINDU_ANSWER_REFUSED] = "refused",
    [WOZKINDU_ANSWER_OLD] = "old",
};

static const char *const refusal_names[] = {
    [WOZKINDU_REFUSAL_BAD_STATE] = "BadState",
    [WOZKINDU_REFUSAL_SERVICE_BUSY] = "ServiceBusy",
    [WOZKINDU_REFUSAL_OPERATION_NOT_PERMITTED] = "OperationNotPermitted",
    [WOZKINDU_REFUSAL_INVALID_TRANSFER_ID] = "InvalidTransferId",
    [WOZKINDU_REFUSAL_WRONG_PACKAGE_STATE] = "WrongPackageState",
    [WOZKINDU_REFUSAL_INCORRECT_BLOCK] = "IncorrectBlock",
    [WOZKINDU_REFUSAL_INCORRECT_SIZE] = "IncorrectSize",
    [WOZKINDU_REFUSAL_INSUFFICIENT_DATA] = "InsufficientData",
    [WOZKINDU_REFUSAL_INVALID_MANIFEST] = "InvalidManifest",
    [WOZKINDU_REFUSAL_PACKAGE_INCONSISTENT] = "PackageInconsistent",
    [WOZKINDU_REFUSAL_CLUSTER_TOUCHED] = "ClusterTouched",
    [WOZKINDU_REFUSAL_CLUSTER_PRESENT] = "ClusterPresent",
    [WOZKINDU_REFUSAL_CLUSTER_ABSENT] = "ClusterAbsent",
    [WOZKINDU_REFUSAL_STAYS] = "Stays",
    [WOZKINDU_REFUSAL_OLD_VERSION] = "OldVersion",
    [WOZKINDU_REFUSAL_TABLE_FULL] = "TableFull",
    [WOZKINDU_REFUSAL_TRANSFERS_FULL] = "TransfersFull",
    [WOZKINDU_REFUSAL_INSUFFICIENT_MEMORY] = "InsufficientMemory",
    [WOZKINDU_REFUSAL_IDS_SPENT] = "IdsSpent",
};

/* Gives the name of a number, or "unknown" where it has none. */
static const char *name_of(const char *const *names, size_t count, uint32_t number)
{
    return number < count && names[number] != NULL ? names[number] : "unknown";
}

/* Puts a call into its row, with its block behind the bytes so far. Gives the bytes then; says false where the block has no room. */
static bool put_call(const struct call *call, uint32_t *row, uint8_t *bytes, uint32_t room, uint32_t *used)
{
    if (call->block_length > room - *used) {
        return false;
    }
    row[WOZKINDU_ROW_CALL] = call->number;
    row[WOZKINDU_ROW_RESERVED] = 0;
    row[WOZKINDU_ROW_FIRST] = call->first;
    row[WOZKINDU_ROW_SECOND] = call->second;
    row[WOZKINDU_ROW_START] = 0;
    row[WOZKINDU_ROW_LENGTH] = call->block_length;
    if (call->block_length > 0) {
        row[WOZKINDU_ROW_START] = *used;
        memcpy(bytes + *used, call->block, call->block_length);
        *used += call->block_length;
    }
    return true;
}

/* Prints a call and the two words of its answer, by name. */
static void print_answer(const struct call *call, const uint32_t *answer)
{
    uint32_t kind = answer[WOZKINDU_ANSWER_WORD_KIND];
    uint32_t value = answer[WOZKINDU_ANSWER_WORD_VALUE];
    printf("%s: %s", name_of(call_names, COUNT_OF(call_names), call->number), name_of(answer_names, COUNT_OF(answer_names), kind));
    if (kind == WOZKINDU_ANSWER_ID || kind == WOZKINDU_ANSWER_OLD) {
        printf(" %lu", (unsigned long)value);
    } else if (kind == WOZKINDU_ANSWER_REFUSED) {
        printf(" %lu, %s", (unsigned long)value, name_of(refusal_names, COUNT_OF(refusal_names), value));
    }
    putchar('\n');
}

int main(void)
{
    static const uint8_t list[] = CLUSTER_LIST;
    static uint8_t store[STORE_LENGTH];
    static uint32_t words[COUNT_OF(calls) * WOZKINDU_ROW_WORDS];
    static uint8_t bytes[BLOCKS_LENGTH];
    static uint32_t answers[COUNT_OF(calls) * WOZKINDU_ANSWER_WORDS];
    uint32_t used = 0;

    for (size_t i = 0; i < COUNT_OF(calls); i++) {
        if (!put_call(&calls[i], words + i * WOZKINDU_ROW_WORDS, bytes, BLOCKS_LENGTH, &used)) {
            fprintf(stderr, "first_update: the blocks have more than %d bytes\n", BLOCKS_LENGTH);
            return EXIT_FAILURE;
        }
    }
    uint32_t result = wozkindu_load_and_run(list, TEXT_LENGTH(CLUSTER_LIST), FIRST_ID, store, sizeof store, words, COUNT_OF(words), bytes,
                                            used, answers, COUNT_OF(answers));
    if (result != WOZKINDU_RESULT_MADE) {
        fprintf(stderr, "first_update: no call was made, result %lu\n", (unsigned long)result);
        return EXIT_FAILURE;
    }
    for (size_t i = 0; i < COUNT_OF(calls); i++) {
        print_answer(&calls[i], answers + i * WOZKINDU_ANSWER_WORDS);
    }
    return fflush(stdout) == 0 ? EXIT_SUCCESS : EXIT_FAILURE;
}
