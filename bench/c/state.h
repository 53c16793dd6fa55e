/* The manager's state in C, handed on by pointer: the limits, the structs and what each file of this folder gives. It is written from the
   specification beside the proved code, as a yardstick of time and as a second implementation whose answers are compared. */
#ifndef BENCH_STATE_H
#define BENCH_STATE_H

#include <stdbool.h>
#include <stddef.h>
#include <stdint.h>

enum { CLUSTERS_MOST = 64, NEEDS_MOST = 4, PACKAGES_MOST = 16, ENTRIES_MOST = 16 };
enum { STORE_MOST = 16777216, PAYLOAD_MOST = 16777216, VERSION_PART_MOST = 65535, SUM_MOST = 65535 };

struct version { uint32_t first, second, third, fourth; };
struct need { uint32_t part; struct version least; };

/* The first need_count of the needs count. */
struct cluster {
    uint32_t part;
    struct version version;
    struct need needs[NEEDS_MOST];
    size_t need_count;
    bool stays;
};

/* The first count of the clusters count, in rising part number. */
struct table {
    struct cluster clusters[CLUSTERS_MOST];
    size_t count;
};

enum change { INSTALL, UPDATE, REMOVE };
struct action { enum change change; struct cluster cluster; };

enum package_state { TRANSFERRING, TRANSFERRED, PACKAGE_PROCESSING, PROCESSED };
struct package { uint32_t id, size, received, blocks; enum package_state state; };

/* The next id is one above the largest of 32 bits when all are spent. */
struct transfers {
    struct package packages[PACKAGES_MOST];
    size_t count;
    uint64_t next;
};

struct entry { uint32_t id; struct action action; };
struct session {
    struct table beginning;
    struct entry entries[ENTRIES_MOST];
    size_t count;
};

struct sums { uint32_t c0, c1; };

/* What is kept of the package that is processing; outside Processing all of it is 0. */
struct work {
    struct action action;
    uint32_t start, count, sum;
    struct sums running_sums;
    uint32_t done;
    bool cancel_noted;
};

enum phase {
    IDLE, READY, PROCESSING, ACTIVATING, VERIFYING, ACTIVATED, ROLLING_BACK, ROLLED_BACK, CLEANING_UP
};

/* The phase that RollingBack or CleaningUp came from is kept in `origin`, in the others it is IDLE. */
struct state {
    enum phase phase, origin;
    struct transfers transfers;
    struct session session;
    struct work work;
};

enum refusal {
    BAD_STATE = 1, SERVICE_BUSY, OPERATION_NOT_PERMITTED, INVALID_TRANSFER_ID, WRONG_PACKAGE_STATE, INCORRECT_BLOCK, INCORRECT_SIZE,
    INSUFFICIENT_DATA, INVALID_MANIFEST, PACKAGE_INCONSISTENT, CLUSTER_TOUCHED, CLUSTER_PRESENT, CLUSTER_ABSENT, OLD_VERSION, TABLE_FULL,
    TRANSFERS_FULL, INSUFFICIENT_MEMORY, IDS_SPENT, BAD_LOAD = 20, STAYS = 21
};

/* An answer in two words, as docs/CALL-LISTS.md numbers them. */
enum answer_kind {
    ID_GIVEN, DONE, WORKING, WORK_PROCESSED, CANCELLED, INCONSISTENT, PRE_ACTIVATION_FAILED, MISSING_DEPENDENCIES, VERIFICATION_FAILED,
    NOT_ABLE_TO_ROLLBACK, NOT_ABLE_TO_REVERT, CLEANING_FAILED, REFUSED, OLD_ANSWER
};
struct answer { uint32_t kind, value; };

/* The numbers of the calls in a row. */
enum call {
    TRANSFER_START, TRANSFER_DATA, TRANSFER_EXIT, DELETE_TRANSFER, PROCESS, WORK, CANCEL, REVERT, ACTIVATE, ROLLBACK, FINISH, REPORT,
    OLD_ACTIVATE, OLD_CANCEL, OLD_REVERT, OLD_ROLLBACK
};

/* The text of a package that was read: refusal 9, 10 or 0, and where it is 0 the action and the payload. */
struct package_text { uint32_t refusal; struct action action; uint32_t start, count, sum; };

/* The lent store. */
struct store { uint8_t *bytes; size_t length; };

/* checksum.c */
struct sums c_sum_naive(struct sums sums, const uint8_t *bytes, size_t length);
struct sums c_sum_by_table(struct sums sums, const uint8_t *bytes, size_t length);

/* list.c, package.c */
bool c_read_list(const uint8_t *text, size_t length, struct table *table);
struct package_text c_read_package(const uint8_t *text, size_t length);

/* table.c */
int c_compare_versions(struct version a, struct version b);
const struct cluster *c_find(const struct table *table, uint32_t part);
bool c_needs_met(const struct table *table);
uint32_t c_staged_refusal(const struct action *action, const struct cluster *staged, size_t staged_count);
size_t c_count_after(const struct action *action, size_t staged_count);
void c_stage(const struct session *session, struct table *staged);

/* sound.c */
bool c_sound(const struct state *s, size_t store_length);
uint32_t c_touched_or_refused(const struct session *session, size_t listed, const struct action *action, size_t staged_count);

/* calls.c */
bool c_load(struct state *s, const uint8_t *list, size_t list_length, uint32_t first, struct store store);
struct answer c_call(struct state *s, struct store store, enum call call, uint32_t first, uint32_t second, const uint8_t *block,
    size_t length);

/* old.c */
uint32_t c_old_call(struct state *s, struct store store, enum call call, uint32_t id);

/* rows.c */
struct list { const uint32_t *words; size_t word_count; const uint8_t *bytes; size_t byte_count; };
bool c_well_formed(struct list list);
void c_make_rows(struct state *s, struct store store, struct list list, uint32_t *answers);
uint32_t c_load_and_run(const uint8_t *text, size_t text_length, uint32_t first, struct store store, struct list list, uint32_t *answers,
    size_t room);

#endif
