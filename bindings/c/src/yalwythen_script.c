/* The calls of yalwythen_script.h over the proved core. */
#include "yalwythen_script.h"

typedef struct core_checkup {
    uint64_t code, channels, seats;
} core_checkup;
typedef struct core_replayed {
    uint64_t code, length;
} core_replayed;

/* No pointer can be NULL, also with length 0. */
core_checkup yalwythen_core_check(const uint8_t *script, size_t length);
core_replayed yalwythen_core_replay(const uint8_t *script, size_t length, uint8_t *report, size_t size);

static const uint8_t *bytes_of(const char *script) { return (const uint8_t *)(script == NULL ? "" : script); }

const char *yalwythen_fault_message(yalwythen_fault fault) {
    static const char *const messages[] = {
        "no fault", "reading the script failed", "the script is over 1,048,576 bytes", "the script is not JSON",
        "a part of the script has the wrong shape", "the version is not 1", "the script has more than 8 channels",
        "the script has no seat or more than 16", "a bound is over 65,535", "a channel has more than 64 readers",
        "an operation is unknown", "the steps of a transaction are invalid", "out of memory",
        "scripts with broadcast channels cannot be replayed here", "the report does not fit into the buffer",
    };
    return (unsigned)fault < sizeof messages / sizeof *messages ? messages[fault] : "unknown fault";
}

yalwythen_fault yalwythen_script_check(const char *script, size_t length, uint64_t *channels, uint64_t *seats) {
    core_checkup found = yalwythen_core_check(bytes_of(script), script == NULL ? 0 : length);
    if (channels != NULL) *channels = found.channels;
    if (seats != NULL) *seats = found.seats;
    return (yalwythen_fault)found.code;
}

yalwythen_fault yalwythen_script_replay(const char *script, size_t length, char *report, size_t *size) {
    uint8_t none;
    size_t room = size == NULL || report == NULL ? 0 : *size;
    uint8_t *out = room == 0 ? &none : (uint8_t *)report;
    core_replayed done = yalwythen_core_replay(bytes_of(script), script == NULL ? 0 : length, out, room);
    if (size != NULL) *size = (size_t)done.length;
    return (yalwythen_fault)done.code;
}
