/* A script is checked and replayed, and faults are reported. */
#include "check.h"
#include <string.h>
#include <yalwythen_script.h>

static const char script[] =
    "{\"version\": 1, \"channels\": [{\"kind\": \"TQueue\"}], \"seats\": [[[[\"write\", 0, 7]], [[\"read\", 0]]]]}";
static const char wanted[] = "seat 0 txn 0 kept: done\nseat 0 txn 1 kept: got w0@0=7\n"
                             "chan 0 TQueue open put 1 took 1 other 0\nchan 0 reader 0 left:\nend done\n";

int main(void) {
    char report[512];
    size_t size = sizeof report;
    uint64_t channels = 9, seats = 9;
    CHECK(yalwythen_script_check(script, strlen(script), &channels, &seats) == YALWYTHEN_FAULT_NONE);
    CHECK(channels == 1 && seats == 1);
    CHECK(yalwythen_script_replay(script, strlen(script), report, &size) == YALWYTHEN_FAULT_NONE);
    CHECK(size == strlen(wanted) && memcmp(report, wanted, size) == 0);
    size = 10;
    CHECK(yalwythen_script_replay(script, strlen(script), report, &size) == YALWYTHEN_FAULT_TOO_SHORT);
    CHECK(size == strlen(wanted));
    size = 0;
    CHECK(yalwythen_script_replay(script, strlen(script), NULL, &size) == YALWYTHEN_FAULT_TOO_SHORT);
    CHECK(size == strlen(wanted));
    CHECK(yalwythen_script_check("{", 1, &channels, &seats) == YALWYTHEN_FAULT_NOT_JSON);
    CHECK(channels == 0 && seats == 0);
    CHECK(yalwythen_script_check(NULL, 0, NULL, NULL) == YALWYTHEN_FAULT_NOT_JSON);
    size = sizeof report;
    CHECK(yalwythen_script_replay("", 0, report, &size) == YALWYTHEN_FAULT_NOT_JSON && size == 0);
    for (int fault = 0; fault < YALWYTHEN_FAULT_TOO_SHORT; fault++) {
        const char *message = yalwythen_fault_message((yalwythen_fault)fault);
        CHECK(strcmp(message, yalwythen_fault_message((yalwythen_fault)(fault + 1))) != 0);
    }
    CHECK(strcmp(yalwythen_fault_message((yalwythen_fault)99), "unknown fault") == 0);
    printf("%lu checks\n", checks);
    return 0;
}
