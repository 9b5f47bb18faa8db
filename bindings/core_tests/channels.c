/* Channels by themselves: made, asked, and used by one operation at a time. */
#include "check.h"

static void check_making(void) {
    void *at = empty_place();
    CHECK_REJECTED(yalwythen_channel_make(at, 6, 0, 0), CORE_NO_SUCH);
    CHECK_REJECTED(yalwythen_channel_make(at, BOUNDED, 65536, 0), CORE_BOUND);
    CHECK_REJECTED(yalwythen_channel_make(at, BROADCAST, 65, 0), CORE_READERS);
    CHECK_REJECTED(yalwythen_channel_make(at, BROADCAST, 1, 1), CORE_BROADCAST_LOG);
    CHECK_REJECTED(yalwythen_channel_tell(at, TELL_ACTS, 0), CORE_NOT_NOW);
    CHECK_REJECTED(write_to(at, 1), CORE_NOT_NOW);
    CHECK_DONE(yalwythen_channel_make(at, QUEUE, 0, 0), 0);
    CHECK_REJECTED(yalwythen_channel_make(at, QUEUE, 0, 0), CORE_NOT_NOW);
    end_channel(at);
    end_channel(empty_place());
}

static void check_queue(void) {
    void *at = channel(QUEUE, 0);
    CHECK_REJECTED(yalwythen_channel_commit_one(at, FLUSH, 0, 0), CORE_NO_SUCH);
    CHECK_REJECTED(yalwythen_channel_commit_one(at, RETRY, 0, 0), CORE_NO_SUCH);
    CHECK_REJECTED(yalwythen_channel_commit_one(at, EITHER, 0, 0), CORE_NO_SUCH);
    CHECK_RETRY(read_from(at, 0), CORE_EMPTY);
    CHECK_RESULT(read_from(at, 3), CORE_INVALID, 3);
    CHECK_RESULT(yalwythen_channel_commit_one(at, CLOSE, 0, 0), CORE_INVALID, 2);
    CHECK_REPLY(write_to(at, 7), REPLY_DONE, 0);
    CHECK_REPLY(yalwythen_channel_commit_one(at, PEEK, 0, 0), REPLY_GOT, 7);
    CHECK_REPLY(yalwythen_channel_commit_one(at, PUT_BACK, 0, 6), REPLY_DONE, 0);
    CHECK_REPLY(read_from(at, 0), REPLY_GOT, 6);
    CHECK_REPLY(yalwythen_channel_commit_one(at, TRY_READ, 0, 0), REPLY_GOT, 7);
    CHECK_REPLY(yalwythen_channel_commit_one(at, TRY_READ, 0, 0), REPLY_EMPTY, 0);
    CHECK_RESULT(yalwythen_channel_commit_one(at, WRITE_LAST, 0, 0), CORE_STOPPED, 2);
    end_channel(at);
}

static void check_bounded(void) {
    void *at = channel(BOUNDED_CLOSABLE, 2);
    CHECK_REPLY(write_to(at, 1), REPLY_DONE, 0);
    CHECK_REPLY(yalwythen_channel_commit_one(at, TRY_WRITE, 0, 2), REPLY_DONE, 0);
    CHECK_REPLY(yalwythen_channel_commit_one(at, TRY_WRITE, 0, 3), REPLY_FULL, 0);
    CHECK_RETRY(write_to(at, 3), CORE_FULL);
    CHECK_REPLY(yalwythen_channel_commit_one(at, IS_CLOSED, 0, 0), REPLY_FLAG, 0);
    CHECK_REPLY(yalwythen_channel_commit_one(at, CLOSE, 0, 0), REPLY_DONE, 0);
    CHECK_REPLY(write_to(at, 3), REPLY_CLOSED, 0);
    CHECK_DONE(yalwythen_channel_tell(at, TELL_ACTS, 0), 3);
    CHECK_DONE(unread(at, 0), 2);
    CHECK_REJECTED(unread(at, 1), CORE_NO_SUCH);
    CHECK_REJECTED(unread(at, 65536), CORE_NO_SUCH);
    CHECK_DONE(yalwythen_channel_tell(at, TELL_CLOSED, 0), 1);
    CHECK_DONE(yalwythen_channel_tell(at, TELL_READERS, 0), 1);
    CHECK_REJECTED(yalwythen_channel_tell(at, 4, 0), CORE_NO_SUCH);
    CHECK_REPLY(read_from(at, 0), REPLY_GOT, 1);
    CHECK_REPLY(read_from(at, 0), REPLY_GOT, 2);
    CHECK_REPLY(read_from(at, 0), REPLY_CLOSED, 0);
    end_channel(at);
}

/* Two readers, and a third one from the second item on. */
static void check_broadcast(void) {
    void *at = channel(BROADCAST, 2);
    CHECK_REPLY(write_to(at, 5), REPLY_DONE, 0);
    CHECK_REPLY(yalwythen_channel_commit_one(at, DUP, 0, 0), REPLY_READER, 2);
    CHECK_REPLY(write_to(at, 6), REPLY_DONE, 0);
    CHECK_REPLY(read_from(at, 1), REPLY_GOT, 5);
    CHECK_REPLY(read_from(at, 2), REPLY_GOT, 6);
    CHECK_RETRY(read_from(at, 2), CORE_EMPTY);
    CHECK_REPLY(read_from(at, 0), REPLY_GOT, 5);
    CHECK_RESULT(read_from(at, 9), CORE_STOPPED, 1);
    CHECK_DONE(unread(at, 1), 1);
    CHECK_DONE(yalwythen_channel_tell(at, TELL_READERS, 0), 3);
    end_channel(at);
}

static void check_moves(void) {
    void *a = channel(QUEUE, 0), *b = channel(QUEUE, 0), *narrow = channel(BOUNDED, 1), *closed = channel(CLOSABLE, 0);
    void *recorded = recorded_channel(QUEUE, 0), *broadcast = channel(BROADCAST, 1), *none = empty_place();
    void *rejected[] = {closed, recorded, none};
    CHECK_REPLY(yalwythen_channel_commit_one(closed, CLOSE, 0, 0), REPLY_DONE, 0);
    CHECK_RETRY(yalwythen_channel_move(a, b), CORE_EMPTY);
    for (uint64_t body = 5; body < 8; body++) CHECK_REPLY(write_to(a, body), REPLY_DONE, 0);
    CHECK_DONE(yalwythen_channel_move(a, b), 5);
    CHECK_REPLY(read_from(b, 0), REPLY_GOT, 5);
    CHECK_DONE(yalwythen_channel_move(a, narrow), 6);
    CHECK_RETRY(yalwythen_channel_move(a, narrow), CORE_FULL);
    for (size_t i = 0; i < 3; i++) {
        CHECK_REJECTED(yalwythen_channel_move(a, rejected[i]), CORE_NOT_NOW);
        CHECK_REJECTED(yalwythen_channel_move(rejected[i], a), CORE_NOT_NOW);
    }
    CHECK_DONE(unread(a, 0), 1);
    CHECK_DONE(unread(narrow, 0), 1);
    CHECK_DONE(yalwythen_channel_move(a, broadcast), 7);
    CHECK_DONE(yalwythen_channel_move(broadcast, b), 7);
    CHECK_REPLY(read_from(b, 0), REPLY_GOT, 7);
    end_channel(a);
    end_channel(b);
    end_channel(narrow);
    end_channel(broadcast);
    for (size_t i = 0; i < 3; i++) end_channel(rejected[i]);
}

/* One operation by a seat, on channels with recorded logs and without. */
static void check_seats(void) {
    void *recorded = recorded_channel(QUEUE, 0), *other = channel(QUEUE, 0), *none = empty_place();
    core_record records[4];
    CHECK_REJECTED(write_to(recorded, 1), CORE_NOT_NOW);
    CHECK_REPLY(yalwythen_channel_commit_as(recorded, 3, 9, 41, WRITE, 0, 7), REPLY_DONE, 0);
    CHECK_REPLY(yalwythen_channel_commit_as(recorded, 4, 1, 5, READ, 0, 0), REPLY_GOT, 7);
    CHECK_RETRY(yalwythen_channel_commit_as(recorded, 4, 2, 99, READ, 0, 0), CORE_EMPTY);
    CHECK_REJECTED(yalwythen_channel_commit_as(recorded, 4, 2, 99, FLUSH, 0, 0), CORE_NO_SUCH);
    CHECK_REJECTED(yalwythen_channel_commit_as(none, 4, 2, 99, READ, 0, 0), CORE_NOT_NOW);
    CHECK_REPLY(yalwythen_channel_commit_as(other, 4, 2, 99, WRITE, 0, 1), REPLY_DONE, 0);
    CHECK_RESULT(yalwythen_channel_commit_as(other, 4, 3, UINT64_MAX, WRITE, 0, 1), CORE_STOPPED, 4);
    CHECK_DONE(yalwythen_channel_account(recorded, 0, records, 4), 2);
    CHECK_NUMBER(records[0].stamp, 42);
    CHECK_NUMBER(records[0].serial, 9);
    CHECK_NUMBER(records[1].stamp, 43);
    CHECK_NUMBER(records[1].seat, 4);
    CHECK_NUMBER(records[1].act, 1);
    CHECK_NUMBER(records[1].maker, 3);
    CHECK_REJECTED(yalwythen_channel_account(other, 0, records, 4), CORE_NOT_NOW);
    CHECK_REJECTED(yalwythen_channel_account(none, 0, records, 4), CORE_NOT_NOW);
    end_channel(recorded);
    end_channel(other);
    end_channel(none);
}

int main(void) {
    check_making();
    check_queue();
    check_bounded();
    check_broadcast();
    check_moves();
    check_seats();
    printf("%lu checks\n", checks);
    return 0;
}
