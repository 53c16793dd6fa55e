/* Wozkindu, the package manager of a reach truck's onboard computer: what a program in C or C++ calls.

   The archive target/staticlib/libc_interface.a has what is declared here, for x86-64: examples/c/run proves it, builds it and puts it
   there, and builds and runs a program with it. docs/INTEGRATION.md, "Linking from C", says more; docs/CALL-LISTS.md explains lists of
   calls, docs/REFUSALS.md the refusals. */
#ifndef WOZKINDU_H
#define WOZKINDU_H

#include <stddef.h>
#include <stdint.h>

#if SIZE_MAX != UINT64_MAX
#error "the archive is built for x86-64, where size_t has 64 bits"
#endif

#ifdef __cplusplus
extern "C" {
#endif

/* The version of this header. While the first number is 0, another second number may mean that a declaration was changed or taken away;
   another third number alone means that all is declared as before. A value keeps its meaning in every version: new ones are added. */
#define WOZKINDU_VERSION_MAJOR 0
#define WOZKINDU_VERSION_MINOR 1
#define WOZKINDU_VERSION_PATCH 0
#define WOZKINDU_VERSION "0.1.0"

/* The most bytes that a store may have. */
#define WOZKINDU_STORE_MOST 16777216

/* A function declared here uses less than this many bytes of stack. */
#define WOZKINDU_STACK_MOST 262144

/* A list of calls: a row for each call, one behind the other. A word that a call does not have is 0. */
#define WOZKINDU_ROW_WORDS 6

enum wozkindu_row_word {
    WOZKINDU_ROW_CALL = 0,     /* an enum wozkindu_call */
    WOZKINDU_ROW_RESERVED = 1, /* 0 */
    WOZKINDU_ROW_FIRST = 2,    /* the call's first number */
    WOZKINDU_ROW_SECOND = 3,   /* the call's second number */
    WOZKINDU_ROW_START = 4,    /* where the call's block begins in the byte string */
    WOZKINDU_ROW_LENGTH = 5    /* how many bytes the block has */
};

/* The calls, with their first number. Only TransferData has a second number and a block. */
enum wozkindu_call {
    WOZKINDU_CALL_TRANSFER_START = 0,  /* the size of the package, in bytes */
    WOZKINDU_CALL_TRANSFER_DATA = 1,   /* the id; second: the block counter, from 1 on */
    WOZKINDU_CALL_TRANSFER_EXIT = 2,   /* the id */
    WOZKINDU_CALL_DELETE_TRANSFER = 3, /* the id */
    WOZKINDU_CALL_PROCESS = 4,         /* the id */
    WOZKINDU_CALL_WORK = 5,            /* how many bytes of the payload to take at most */
    WOZKINDU_CALL_CANCEL = 6,          /* the id */
    WOZKINDU_CALL_REVERT = 7,          /* none */
    WOZKINDU_CALL_ACTIVATE = 8,        /* none */
    WOZKINDU_CALL_ROLLBACK = 9,        /* none */
    WOZKINDU_CALL_FINISH = 10,         /* none */
    WOZKINDU_CALL_REPORT = 11,         /* an enum wozkindu_report */
    WOZKINDU_CALL_OLD_ACTIVATE = 12,   /* none; these four are the old calls of dealers' tools */
    WOZKINDU_CALL_OLD_CANCEL = 13,     /* the id */
    WOZKINDU_CALL_OLD_REVERT = 14,     /* none */
    WOZKINDU_CALL_OLD_ROLLBACK = 15    /* none */
};

/* What the machine reports. */
enum wozkindu_report {
    WOZKINDU_REPORT_BAD = 0,
    WOZKINDU_REPORT_GOOD = 1
};

/* The answers: two words for each call, in the order of the rows. */
#define WOZKINDU_ANSWER_WORDS 2

enum wozkindu_answer_word {
    WOZKINDU_ANSWER_WORD_KIND = 0, /* an enum wozkindu_answer */
    WOZKINDU_ANSWER_WORD_VALUE = 1 /* the id, the refusal or the old answer; else 0 */
};

enum wozkindu_answer {
    WOZKINDU_ANSWER_ID = 0, /* TransferStart: the value is the id */
    WOZKINDU_ANSWER_DONE = 1,
    WOZKINDU_ANSWER_WORKING = 2,
    WOZKINDU_ANSWER_PROCESSED = 3,
    WOZKINDU_ANSWER_CANCELLED = 4,
    WOZKINDU_ANSWER_INCONSISTENT = 5,
    WOZKINDU_ANSWER_PRE_ACTIVATION_FAILED = 6,
    WOZKINDU_ANSWER_MISSING_DEPENDENCIES = 7,
    WOZKINDU_ANSWER_VERIFICATION_FAILED = 8,
    WOZKINDU_ANSWER_NOT_ABLE_TO_ROLLBACK = 9,
    WOZKINDU_ANSWER_NOT_ABLE_TO_REVERT = 10,
    WOZKINDU_ANSWER_CLEANING_FAILED = 11,
    WOZKINDU_ANSWER_REFUSED = 12, /* the call changed nothing: the value is an enum wozkindu_refusal */
    WOZKINDU_ANSWER_OLD = 13      /* an old call: the value is one of enum wozkindu_old_answer of that call */
};

/* Why a call was refused, in the order in which it is checked. Only a reading call answers 19, ShortBuffer, and none is declared here. */
enum wozkindu_refusal {
    WOZKINDU_REFUSAL_BAD_STATE = 1,
    WOZKINDU_REFUSAL_SERVICE_BUSY = 2,
    WOZKINDU_REFUSAL_OPERATION_NOT_PERMITTED = 3,
    WOZKINDU_REFUSAL_INVALID_TRANSFER_ID = 4,
    WOZKINDU_REFUSAL_WRONG_PACKAGE_STATE = 5,
    WOZKINDU_REFUSAL_INCORRECT_BLOCK = 6,
    WOZKINDU_REFUSAL_INCORRECT_SIZE = 7,
    WOZKINDU_REFUSAL_INSUFFICIENT_DATA = 8,
    WOZKINDU_REFUSAL_INVALID_MANIFEST = 9,
    WOZKINDU_REFUSAL_PACKAGE_INCONSISTENT = 10,
    WOZKINDU_REFUSAL_CLUSTER_TOUCHED = 11,
    WOZKINDU_REFUSAL_CLUSTER_PRESENT = 12,
    WOZKINDU_REFUSAL_CLUSTER_ABSENT = 13,
    WOZKINDU_REFUSAL_STAYS = 21, /* checked directly after 13 */
    WOZKINDU_REFUSAL_OLD_VERSION = 14,
    WOZKINDU_REFUSAL_TABLE_FULL = 15,
    WOZKINDU_REFUSAL_TRANSFERS_FULL = 16,
    WOZKINDU_REFUSAL_INSUFFICIENT_MEMORY = 17,
    WOZKINDU_REFUSAL_IDS_SPENT = 18,
    WOZKINDU_REFUSAL_BAD_LOAD = 20 /* Load's: in a list of calls it is the result of the whole */
};

/* What an old call answers. Anything but 0 changed nothing; its meaning goes by the call. */
enum wozkindu_old_answer {
    WOZKINDU_OLD_SUCCESS = 0,
    WOZKINDU_OLD_ACTIVATE_NO_PROCESSED_PACKAGES = 1,
    WOZKINDU_OLD_ACTIVATE_ERROR_DURING_ACTIVATION = 2,
    WOZKINDU_OLD_ACTIVATE_MISSING_DEPENDENCIES = 4,
    WOZKINDU_OLD_CANCEL_ERROR = 1,
    WOZKINDU_OLD_CANCEL_OPERATION_NOT_PERMITTED = 2,
    WOZKINDU_OLD_REVERT_NOTHING_TO_REVERT = 1,
    WOZKINDU_OLD_REVERT_NOT_ABLE_TO_REVERT = 2,
    WOZKINDU_OLD_ROLLBACK_NOTHING_TO_ROLL_BACK = 1,
    WOZKINDU_OLD_ROLLBACK_NOT_ABLE_TO_ROLL_BACK = 2
};

/* What became of a list as a whole. Numbers of refusals are below 256. */
enum wozkindu_result {
    WOZKINDU_RESULT_MADE = 0,             /* every call was made; each has its own answer */
    WOZKINDU_RESULT_BAD_LOAD = 20,        /* ill-formed cluster list, first id 0, or a store of more than WOZKINDU_STORE_MOST bytes */
    WOZKINDU_RESULT_MALFORMED_LIST = 256, /* some row is no call, a block ends past the byte string, or words are left over */
    WOZKINDU_RESULT_SHORT_ANSWERS = 257   /* less than WOZKINDU_ANSWER_WORDS words for each call */
};

/* Loads the cluster list, and then makes every call of the list, each with the state and store that the one before left. Gives an
   enum wozkindu_result. With any but WOZKINDU_RESULT_MADE no call was made, and store and answers are as they were.

   list     the truck's cluster list as text
   first    the first transfer id, at least 1
   store    the room for packages; filled with 0 and then written by the calls
   words    the list of calls: WOZKINDU_ROW_WORDS words for each
   bytes    the byte string with the blocks of the calls
   answers  room for WOZKINDU_ANSWER_WORDS words for each call; words behind the answers keep their values

   A length counts elements, of words and answers words.

   The caller owns all memory and lends it for the time of the call. Nothing is allocated, nothing is kept between two calls, and there is
   no variable outside the call: several threads may call at once, each with its own store and answers.

   Whatever the bytes and words say, the call ends and writes nothing but store and answers. The pointers must be right:
   - Each points to as many elements as its length says, aligned as their type demands, which may be read and, of store and answers,
     written. None is NULL, also where the length is 0: a NULL pointer is no slice, and nothing is promised of one.
   - Store and answers overlap neither each other nor what is lent for reading, and nobody else reads or writes them during the call; nobody
     writes the others. All that is proved speaks of slices of which this holds, and the compiled code relies on it. List, words and
     bytes are only read and may overlap one another. */
uint32_t wozkindu_load_and_run(const uint8_t *list, size_t list_length, uint32_t first, uint8_t *store, size_t store_length,
                               const uint32_t *words, size_t words_length, const uint8_t *bytes, size_t bytes_length,
                               uint32_t *answers, size_t answers_length);

#ifdef __cplusplus
}
#endif

#endif
