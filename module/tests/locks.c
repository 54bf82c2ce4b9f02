/*
 * What other threads do between the locks of one call: work on a long message, updates in pieces,
 * and the end of the library.
 */
#include "conventions.h"

#include <limits.h>
#include <pthread.h>
#include <sched.h>
#include <stdatomic.h>
#include <stdlib.h>
#include <string.h>
#include <sys/resource.h>
#include <time.h>

/* ---- Work on a long message, while something changes before its call. The lock is taken three
 * times: before the message is copied, before its bytes are taken in, and for the call. */

enum { LONG_MESSAGE = 5000, SHORT_PIECE = 4000 };

static void begin_with_mutexes(void) {
    CK_C_INITIALIZE_ARGS arguments = mutex_arguments();
    current_session = begin_token_with(&arguments);
}

static void change_at_lock(int number, void (*made)(void)) {
    locks_until_change = number;
    change = made;
}

/* Before this lock, while nobody waits for it. */
static void change_before_lock(int number, void (*made)(void)) {
    unlocks_until_change = number - 1;
    change = made;
}

static void change_at_call(void (*made)(void)) {
    change_at_lock(3, made);
}

static void begin_sha(CK_MECHANISM_TYPE type) {
    CK_MECHANISM sha = mechanism_of(type);
    EXPECT(CKR_OK, p11->C_DigestInit(current_session, &sha));
}

/* Digests the long message in pieces that are short. */
static void digest_in_short_pieces(CK_BYTE *digest) {
    length = 64;
    EXPECT(CKR_OK, p11->C_DigestUpdate(current_session, large, SHORT_PIECE));
    EXPECT(CKR_OK, p11->C_DigestUpdate(current_session, large + SHORT_PIECE,
                                       LONG_MESSAGE - SHORT_PIECE));
    EXPECT(CKR_OK, p11->C_DigestFinal(current_session, digest, &length));
}

/* C_Digest of the long message, whose operation was begun with SHA-512, and is by a change begun
 * anew with SHA-256. The lock is taken this often behind the change. */
static void check_changed_digest(int locks_behind) {
    CK_BYTE digest[64], expected[64];
    length = sizeof digest;
    EXPECT(CKR_OK, p11->C_Digest(current_session, large, LONG_MESSAGE, digest, &length));
    CHECK(locks_until_change == 0 && unlocks_until_change == 0 && length == 32);
    CHECK(locks == locks_at_change + locks_behind);
    begin_sha(CKM_SHA256);
    digest_in_short_pieces(expected);
    CHECK(memcmp(digest, expected, 32) == 0);
}

/* The change comes before the second lock, and then before the third one. For another token no
 * bytes are taken in, so that the lock behind the change is the last one. */
static void check_digest_with(void (*made)(void), bool is_other_token) {
    for (int lock = 2; lock <= 3; lock++) {
        begin_sha(CKM_SHA512);
        change_before_lock(lock, made);
        check_changed_digest(is_other_token ? 1 : 4 - lock);
    }
}

static CK_BYTE result[64];

static CK_RV begin_verify(void) {
    return p11->C_VerifyInit(current_session, &current_mechanism, current_key);
}

static CK_RV digest_long(void) {
    return p11->C_Digest(current_session, large, LONG_MESSAGE, result, &length);
}

static CK_RV digest_update_long(void) {
    return p11->C_DigestUpdate(current_session, large, LONG_MESSAGE);
}

static CK_RV digest_final(void) {
    return p11->C_DigestFinal(current_session, result, &length);
}

static CK_RV sign_long(void) {
    return p11->C_Sign(current_session, large, LONG_MESSAGE, result, &length);
}

static CK_RV sign_update_long(void) {
    return p11->C_SignUpdate(current_session, large, LONG_MESSAGE);
}

static CK_RV sign_final(void) {
    return p11->C_SignFinal(current_session, result, &length);
}

static CK_RV verify_long(void) {
    return p11->C_Verify(current_session, large, LONG_MESSAGE, result, length);
}

static CK_RV verify_update_long(void) {
    return p11->C_VerifyUpdate(current_session, large, LONG_MESSAGE);
}

static CK_RV verify_final(void) {
    return p11->C_VerifyFinal(current_session, result, length);
}

/* A call with the long message, and what is done before and behind it. */
struct long_call {
    const char *what;
    CK_MECHANISM_TYPE mechanism;
    CK_RV (*begin)(void);
    CK_RV (*make)(void);
    CK_RV (*finish)(void);
};

/* Those that verify are given the signature that was made before them. */
static const struct long_call long_calls[] = {
    {"C_Digest", CKM_SHA256, begin_digest, digest_long, begin_nothing},
    {"C_DigestUpdate", CKM_SHA256, begin_digest, digest_update_long, digest_final},
    {"C_Sign", CKM_SHA256_HMAC, begin_sign, sign_long, begin_nothing},
    {"C_SignUpdate", CKM_SHA256_HMAC, begin_sign, sign_update_long, sign_final},
    {"C_Verify", CKM_SHA256_HMAC, begin_verify, verify_long, begin_nothing},
    {"C_VerifyUpdate", CKM_SHA256_HMAC, begin_verify, verify_update_long, verify_final},
};

/* Of the first bytes of the large message, by Python's hashlib and hmac. */
static const char sha256_of_long[] =
    "69dbee893909fa17d1be397e0c07691336fe42049c29d403467d3d4a1fc3b5a1";
static const char hmac_of_long[] =
    "96a619eb5bae9466096af75548df6da442488dcb33452333407a16dfb20bf3e3";

static void change_message(void) {
    memset(large, 'x', LONG_MESSAGE);
}

static void begin_long_call(const struct long_call *call) {
    fill_large();
    current_mechanism = mechanism_of(call->mechanism);
    length = call->begin == begin_verify ? 32 : sizeof result;
    check_code(call->begin(), CKR_OK, call->what);
}

static void finish_long_call(const struct long_call *call) {
    bool is_digest = call->mechanism == CKM_SHA256;
    check_code(call->finish(), CKR_OK, call->what);
    check(is_hexadecimal(result, length, is_digest ? sha256_of_long : hmac_of_long), call->what);
}

/* The message is copied, and taken in without the lock. So what the application does to it later
 * doesn't count, and the lock is taken three times. */
static void check_long_call(const struct long_call *call) {
    begin_long_call(call);
    change_at_call(change_message);
    int before = locks;
    check_code(call->make(), CKR_OK, call->what);
    check(locks == before + 3 && locks_until_change == 0, call->what);
    finish_long_call(call);
}

static void test_changed_messages(void) {
    begin_with_mutexes();
    current_key = create_key(current_session, "Jefe");
    for (size_t i = 0; i < sizeof long_calls / sizeof *long_calls; i++)
        check_long_call(&long_calls[i]);
    end_token();
}

/* A call whose lock fails isn't made, and leaves its operation as it is. */
static void check_failing_lock_of(const struct long_call *call, int number) {
    begin_long_call(call);
    locks_until_failure = number;
    check_code(call->make(), CKR_GENERAL_ERROR, call->what);
    check(locks_until_failure == 0 && locks == unlocks && depth == 0, call->what);
    check_code(call->make(), CKR_OK, call->what);
    finish_long_call(call);
}

static void test_failing_lock_of_messages(void) {
    begin_with_mutexes();
    current_key = create_key(current_session, "Jefe");
    for (size_t i = 0; i < sizeof long_calls / sizeof *long_calls; i++) {
        for (int number = 1; number <= 3; number++)
            check_failing_lock_of(&long_calls[i], number);
    }
    end_token();
}

/* From 4,096 bytes on a message is long. Where only the length of what it gives is asked for, it
 * isn't taken in, so the lock is taken once. */
static void test_locks_of_messages(void) {
    CK_MECHANISM sha256 = mechanism_of(CKM_SHA256), hmac = mechanism_of(CKM_SHA256_HMAC);
    fill_large();
    begin_with_mutexes();
    current_key = create_key(current_session, "Jefe");
    EXPECT(CKR_OK, p11->C_DigestInit(current_session, &sha256));
    EXPECT(CKR_OK, p11->C_SignInit(current_session, &hmac, current_key));
    EXPECT(CKR_OK, p11->C_VerifyInit(current_session, &hmac, current_key));
    int before = locks;
    EXPECT(CKR_OK, p11->C_Digest(current_session, large, LONG_MESSAGE, NULL, &length));
    CHECK(locks == before + 1);
    EXPECT(CKR_OK, p11->C_Sign(current_session, large, LONG_MESSAGE, NULL, &length));
    CHECK(locks == before + 2);
    check_code(p11->C_Verify(current_session, large, LONG_MESSAGE, NULL, 32), CKR_ARGUMENTS_BAD,
               "C_Verify of a long message without a signature");
    CHECK(locks == before + 3);
    for (CK_ULONG given = 4095; given <= 4096; given++) {
        int expected = given < 4096 ? 1 : 3;
        before = locks;
        EXPECT(CKR_OK, p11->C_DigestUpdate(current_session, large, given));
        CHECK(locks == before + expected);
        EXPECT(CKR_OK, p11->C_SignUpdate(current_session, large, given));
        CHECK(locks == before + 2 * expected);
        EXPECT(CKR_OK, p11->C_VerifyUpdate(current_session, large, given));
        CHECK(locks == before + 3 * expected);
    }
    CK_FLAGS all = CKF_DIGEST | CKF_SIGN | CKF_VERIFY;
    EXPECT(CKR_OK, p11->C_SessionCancel(current_session, all));
    EXPECT(CKR_OK, p11->C_DigestInit(current_session, &sha256));
    EXPECT(CKR_OK, p11->C_SignInit(current_session, &hmac, current_key));
    /* The room is exact. */
    length = 32;
    before = locks;
    EXPECT(CKR_OK, p11->C_Digest(current_session, large, LONG_MESSAGE, result, &length));
    CHECK(locks == before + 3);
    EXPECT(CKR_OK, p11->C_Sign(current_session, large, LONG_MESSAGE, result, &length));
    CHECK(locks == before + 6);
    end_token();
}

/* The pieces of a search are one call for other threads. */
static void test_lock_of_search(void) {
    static CK_OBJECT_HANDLE handles[1500];
    begin_with_mutexes();
    for (int i = 0; i < 1500; i++)
        create_data(current_session, "label");
    EXPECT(CKR_OK, p11->C_FindObjectsInit(current_session, NULL, 0));
    int before = locks;
    EXPECT(CKR_OK, p11->C_FindObjects(current_session, handles, 1500, &length));
    CHECK(length == 1500 && locks == before + 1);
    end_token();
}

static void begin_anew(void) {
    CK_SESSION_HANDLE before = current_session;
    EXPECT(CKR_OK, p11->C_Finalize(NULL));
    begin_with_mutexes();
    check(current_session == before, "the session's handle is that of the first token");
    begin_sha(CKM_SHA256);
}

static void test_work_of_another_token(void) {
    fill_large();
    begin_with_mutexes();
    check_digest_with(begin_anew, true);
    end_token();
}

/* Closes the sessions, and makes more calls than a journal in memory has entries before it is
 * cut. */
static void close_and_cut(void) {
    enum { MANY_CALLS = 1100 };
    CK_TOKEN_INFO info;
    int refused = 0;
    EXPECT(CKR_OK, p11->C_CloseAllSessions(0));
    for (int i = 0; i < MANY_CALLS; i++)
        refused += p11->C_GetTokenInfo(0, &info) != CKR_OK;
    CHECK(refused == 0);
}

static void test_work_and_cut(void) {
    fill_large();
    for (int lock = 2; lock <= 3; lock++) {
        begin_with_mutexes();
        begin_sha(CKM_SHA512);
        change_before_lock(lock, close_and_cut);
        length = 64;
        EXPECT(CKR_SESSION_HANDLE_INVALID,
               p11->C_Digest(current_session, large, LONG_MESSAGE, bytes, &length));
        CHECK(unlocks_until_change == 0);
        end_token();
    }
}

/* The token that begins anew keeps a journal file, and the one before it doesn't; or the other way
 * round. */
static void begin_anew_with_journal(void) {
    keep_journals(folder);
    begin_anew();
}

static void begin_anew_without_journal(void) {
    keep_journals(NULL);
    begin_anew();
}

static void check_digest_between(const char *before, void (*made)(void)) {
    for (int lock = 2; lock <= 3; lock++) {
        keep_journals(before);
        begin_with_mutexes();
        begin_sha(CKM_SHA512);
        change_before_lock(lock, made);
        check_changed_digest(1);
        end_token();
    }
}

static void test_journal_in_between(void) {
    fill_large();
    check_digest_between(NULL, begin_anew_with_journal);
    check_digest_between(folder, begin_anew_without_journal);
    keep_journals(has_journals ? folder : NULL);
}

static void begin_operation_anew(void) {
    EXPECT(CKR_OK, p11->C_SessionCancel(current_session, CKF_DIGEST));
    begin_sha(CKM_SHA256);
}

static void test_work_of_another_operation(void) {
    fill_large();
    begin_with_mutexes();
    check_digest_with(begin_operation_anew, false);
    for (int lock = 2; lock <= 3; lock++) {
        begin_sha(CKM_SHA512);
        change_at_lock(lock, begin_operation_anew);
        check_changed_digest(4 - lock);
    }
    end_token();
}

static void add_piece(void) {
    EXPECT(CKR_OK, p11->C_DigestUpdate(current_session, bytes, 5));
}

static void test_piece_in_between(void) {
    CK_BYTE digest[64], expected[64];
    fill_large();
    begin_with_mutexes();
    begin_sha(CKM_SHA512);
    change_at_call(add_piece);
    EXPECT(CKR_OK, p11->C_DigestUpdate(current_session, large, LONG_MESSAGE));
    CHECK(locks_until_change == 0);
    length = sizeof digest;
    EXPECT(CKR_OK, p11->C_DigestFinal(current_session, digest, &length));
    begin_sha(CKM_SHA512);
    add_piece();
    digest_in_short_pieces(expected);
    CHECK(memcmp(digest, expected, sizeof digest) == 0);
    end_token();
}

/* ---- A change between the pieces of an update. The lock is taken three times for a long piece. */

enum { LOCKS_OF_PIECE = 3 };

static CK_RV digest_piece(void) {
    return p11->C_Digest(current_session, large, PIECE, result, &length);
}

static CK_RV digest_update_piece(void) {
    return p11->C_DigestUpdate(current_session, large, PIECE);
}

static CK_RV sign_piece(void) {
    return p11->C_Sign(current_session, large, PIECE, result, &length);
}

static CK_RV sign_update_piece(void) {
    return p11->C_SignUpdate(current_session, large, PIECE);
}

static CK_RV verify_piece(void) {
    return p11->C_Verify(current_session, large, PIECE, result, 32);
}

static CK_RV verify_update_piece(void) {
    return p11->C_VerifyUpdate(current_session, large, PIECE);
}

/* Of a piece, before whose last lock these calls are made, if there are any. */
static void note_times(void (*between)(void), CK_RV (*make)(void), CK_RV expected,
                       const char *what) {
    CK_MECHANISM hmac = mechanism_of(CKM_SHA256_HMAC);
    begin_sha(CKM_SHA256);
    EXPECT(CKR_OK, p11->C_SignInit(current_session, &hmac, current_key));
    EXPECT(CKR_OK, p11->C_VerifyInit(current_session, &hmac, current_key));
    length = sizeof result;
    times_noted = 0;
    if (between != NULL)
        change_before_lock(LOCKS_OF_PIECE, between);
    check_code(make(), expected, what);
    check(times_noted == 2 * LOCKS_OF_PIECE && unlocks_until_change == 0, what);
    CK_FLAGS all = CKF_DIGEST | CKF_SIGN | CKF_VERIFY;
    EXPECT(CKR_OK, p11->C_SessionCancel(current_session, all));
}

static CK_RV ask_for_session(void) {
    CK_SESSION_INFO info;
    return p11->C_GetSessionInfo(current_session, &info);
}

static void ask_often_for_session(int times) {
    int refused = 0;
    for (int i = 0; i < times; i++)
        refused += ask_for_session() != CKR_OK;
    CHECK(refused == 0);
}

/* Behind the last of them the journal in memory would be cut, if no session were open. */
static void ask_in_between(void) {
    enum { CALLS_BETWEEN = 2000 };
    CK_TOKEN_INFO info;
    ask_often_for_session(CALLS_BETWEEN);
    EXPECT(CKR_OK, p11->C_GetTokenInfo(0, &info));
}

static long long least(long long one, long long other) {
    return one < other ? one : other;
}

/* The least of a few times counts, since another system may have the processor in the middle of
 * one. */
static void check_times(void (*between)(void), CK_RV (*make)(void), CK_RV expected,
                        const char *what) {
    enum { TRIES = 5 };
    long long without_lock = LLONG_MAX, under_lock = LLONG_MAX;
    for (int i = 0; i < TRIES; i++) {
        note_times(between, make, expected, what);
        without_lock = least(without_lock, noted_times[2] - noted_times[1] + noted_times[4]
                             - noted_times[3]);
        under_lock = least(under_lock, noted_times[5] - noted_times[4]);
    }
    check(without_lock > 5 * under_lock, what);
}

/* The piece is copied and taken in between the three locks, and not under the last, however many
 * calls others make meanwhile. */
static void check_work_without_lock(CK_RV (*make)(void), CK_RV expected, const char *what) {
    check_times(NULL, make, expected, what);
    check_times(ask_in_between, make, expected, what);
}

/* However long the journal in memory is: it isn't cut while a session is open. */
static void test_work_without_lock(void) {
    fill_large();
    begin_with_mutexes();
    ask_often_for_session(20000);
    current_key = create_key(current_session, "Jefe");
    check_work_without_lock(digest_piece, CKR_OK, "C_Digest");
    check_work_without_lock(digest_update_piece, CKR_OK, "C_DigestUpdate");
    check_work_without_lock(sign_piece, CKR_OK, "C_Sign");
    check_work_without_lock(sign_update_piece, CKR_OK, "C_SignUpdate");
    memset(result, 0, sizeof result);
    check_work_without_lock(verify_piece, CKR_SIGNATURE_INVALID, "C_Verify");
    check_work_without_lock(verify_update_piece, CKR_OK, "C_VerifyUpdate");
    end_token();
}

/* Answers whether the lock failed. Before the first piece is taken nothing has changed. Later the
 * message has a hole, and the operation can't be ended, so no call is answered any more. */
static bool try_failing_lock(int locks_before) {
    CK_BYTE digest[32];
    begin_with_mutexes();
    begin_sha(CKM_SHA256);
    locks_until_failure = locks_before + 1;
    CK_RV code = p11->C_DigestUpdate(current_session, large, LARGE);
    bool has_failed = locks_until_failure == 0;
    locks_until_failure = 0;
    check_code(code, has_failed ? CKR_GENERAL_ERROR : CKR_OK, "C_DigestUpdate");
    length = sizeof digest;
    code = p11->C_DigestFinal(current_session, digest, &length);
    bool has_hole = has_failed && locks_before >= LOCKS_OF_PIECE;
    check_code(code, has_hole ? CKR_DEVICE_ERROR : CKR_OK, "C_DigestFinal");
    CK_SESSION_INFO info;
    code = p11->C_GetSessionInfo(current_session, &info);
    check_code(code, has_hole ? CKR_DEVICE_ERROR : CKR_OK, "C_GetSessionInfo");
    end_token();
    begin_token();
    end_token();
    return has_failed;
}

static void test_lock_that_fails_between(void) {
    int locks_before = 0;
    while (locks_before < 100 && try_failing_lock(locks_before))
        locks_before++;
    CHECK(locks_before > LOCKS_OF_PIECE && locks_before < 100);
}

/* An update whose token is finalized between its pieces, and the digest of the new token, which has
 * an operation with SHA-256. */
static void check_ended_update(void) {
    CK_BYTE digest[64], expected[64];
    EXPECT(CKR_CRYPTOKI_NOT_INITIALIZED, p11->C_DigestUpdate(current_session, large, LARGE));
    CHECK(locks_until_change == 0 && unlocks_until_change == 0);
    digest_in_short_pieces(digest);
    begin_sha(CKM_SHA256);
    digest_in_short_pieces(expected);
    CHECK(length == 32 && memcmp(digest, expected, 32) == 0);
}

/* The next piece is none of the new token, although its session has the same handle, and has an
 * operation. */
static void test_update_and_another_token(void) {
    fill_large();
    begin_with_mutexes();
    begin_sha(CKM_SHA512);
    change_at_lock(LOCKS_OF_PIECE + 1, begin_anew);
    check_ended_update();
    for (int lock = LOCKS_OF_PIECE + 1; lock <= 2 * LOCKS_OF_PIECE; lock++) {
        begin_sha(CKM_SHA512);
        change_before_lock(lock, begin_anew);
        check_ended_update();
    }
    end_token();
}

static CK_RV update_with_pieces(void) {
    return p11->C_DigestUpdate(current_session, large, LARGE);
}

/* The new token has an update whose lock fails, too. */
static void begin_anew_and_fail(void) {
    begin_anew();
    locks_until_failure = LOCKS_OF_PIECE + 1;
    EXPECT(CKR_GENERAL_ERROR, update_with_pieces());
    EXPECT(CKR_DEVICE_ERROR, ask_for_session());
}

/* An update whose lock fails once this change has put another token in place of its own. */
static void check_failing_lock_behind(void (*made)(void), CK_RV expected) {
    begin_with_mutexes();
    begin_sha(CKM_SHA256);
    locks_until_failure = LOCKS_OF_PIECE + 1;
    change_at_failure = made;
    EXPECT(CKR_GENERAL_ERROR, update_with_pieces());
    CHECK(locks_until_failure == 0 && change_at_failure == NULL);
    EXPECT(expected, ask_for_session());
    end_token();
}

/* Only the token that has a message with a hole answers no call any more. */
static void test_failing_lock_and_another_token(void) {
    fill_large();
    check_failing_lock_behind(begin_anew, CKR_OK);
    check_failing_lock_behind(begin_anew_and_fail, CKR_DEVICE_ERROR);
    begin_with_mutexes();
    EXPECT(CKR_OK, ask_for_session());
    end_token();
}

/* ---- The library is finalized while a call waits for the application's lock. */

static void finalize(void) {
    EXPECT(CKR_OK, p11->C_Finalize(NULL));
}

static CK_RV finalize_again(void) {
    return p11->C_Finalize(NULL);
}

/* At the last of this many locks of a call. */
static void check_finalized_at(int locks_before, CK_RV (*make)(void), const char *what) {
    begin_with_mutexes();
    begin_sha(CKM_SHA256);
    length = sizeof result;
    locks_until_change = locks_before;
    change = finalize;
    check_code(make(), CKR_CRYPTOKI_NOT_INITIALIZED, what);
    check(locks_until_change == 0 && depth == 0 && locks == unlocks && destroyed == 1, what);
    check_code(p11->C_Finalize(NULL), CKR_CRYPTOKI_NOT_INITIALIZED, what);
    begin_with_mutexes();
    begin_sha(CKM_SHA256);
    check_code(digest_update_long(), CKR_OK, what);
    end_token();
}

static void test_finalized_while_waiting(void) {
    fill_large();
    check_finalized_at(1, ask_for_session, "C_GetSessionInfo");
    check_finalized_at(1, finalize_again, "C_Finalize");
    for (int locks_before = 1; locks_before <= LOCKS_OF_PIECE; locks_before++)
        check_finalized_at(locks_before, digest_update_long, "C_DigestUpdate of a long piece");
    for (int locks_before = 1; locks_before <= LOCKS_OF_PIECE; locks_before++)
        check_finalized_at(locks_before, digest_long, "C_Digest of a long message");
    for (int locks_before = 1; locks_before <= 2 * LOCKS_OF_PIECE; locks_before++)
        check_finalized_at(locks_before, update_with_pieces, "C_DigestUpdate in pieces");
}

/* Behind the last of this many unlocks of a call, in the application's function. */
static void check_finalized_behind(int unlocks_before, CK_RV (*make)(void), CK_RV expected,
                                   const char *what) {
    begin_with_mutexes();
    begin_sha(CKM_SHA256);
    length = sizeof result;
    unlocks_until_change = unlocks_before;
    change = finalize;
    check_code(make(), expected, what);
    check(unlocks_until_change == 0 && depth == 0 && locks == unlocks && destroyed == 1, what);
    check_code(p11->C_Finalize(NULL), CKR_CRYPTOKI_NOT_INITIALIZED, what);
}

static void test_finalized_while_unlocking(void) {
    fill_large();
    check_finalized_behind(1, ask_for_session, CKR_OK, "C_GetSessionInfo");
    for (int unlock = 1; unlock <= LOCKS_OF_PIECE; unlock++) {
        CK_RV expected = unlock < LOCKS_OF_PIECE ? CKR_CRYPTOKI_NOT_INITIALIZED : CKR_OK;
        check_finalized_behind(unlock, digest_long, expected, "C_Digest of a long message");
    }
}

/* A call that has waited for the lock of a token isn't made by the next one, also where the
 * application has the same mutex for both. */
static void check_anew_at(int locks_before, CK_RV (*make)(void), const char *what) {
    begin_with_mutexes();
    begin_sha(CKM_SHA256);
    length = sizeof result;
    change_at_lock(locks_before, begin_anew);
    check_code(make(), CKR_CRYPTOKI_NOT_INITIALIZED, what);
    check(locks_until_change == 0 && depth == 0, what);
    check_code(digest_update_long(), CKR_OK, what);
    end_token();
}

static void test_initialized_while_waiting(void) {
    fill_large();
    check_anew_at(1, ask_for_session, "C_GetSessionInfo");
    check_anew_at(1, finalize_again, "C_Finalize");
    for (int locks_before = 1; locks_before <= LOCKS_OF_PIECE; locks_before++)
        check_anew_at(locks_before, digest_long, "C_Digest of a long message");
}

/* ---- Threads that wait in a function of the application's for a mutex */

/* A mutex, and how many threads are in LockMutex for it. */
struct waited_mutex {
    pthread_mutex_t mutex;
    atomic_int waiting;
};

static const struct waiting_call {
    const char *what;
    CK_RV (*make)(void);
} waiting_calls[] = {
    {"C_GetSessionInfo", ask_for_session},
    {"C_Finalize", finalize_again},
    {"C_Digest of a long message", digest_long},
};

enum { WAITING = sizeof waiting_calls / sizeof *waiting_calls };

static pthread_t waiting_threads[WAITING];
static bool starts_waiting; /* when the mutex is next locked */
static atomic_int given_back;

static void *make_waiting_call(void *which) {
    const struct waiting_call *call = &waiting_calls[*(int *)which];
    check_code(call->make(), CKR_CRYPTOKI_NOT_INITIALIZED, call->what);
    return NULL;
}

/* Until all of them are in LockMutex, and then long enough for them to sleep there. */
static void start_waiting(struct waited_mutex *waited) {
    static int numbers[WAITING];
    const struct timespec moment = {.tv_nsec = 20000000};
    starts_waiting = false;
    for (int i = 0; i < WAITING; i++) {
        numbers[i] = i;
        if (pthread_create(&waiting_threads[i], NULL, make_waiting_call, &numbers[i]) != 0)
            exit(2);
    }
    while (waited->waiting < WAITING)
        sched_yield();
    nanosleep(&moment, NULL);
}

static CK_RV create_waited(CK_VOID_PTR_PTR mutex) {
    struct waited_mutex *waited = zeros_new(1, sizeof *waited);
    pthread_mutex_init(&waited->mutex, NULL);
    *mutex = waited;
    return CKR_OK;
}

/* A mutex that a thread waits for stays, so that the thread ends. */
static CK_RV destroy_waited(CK_VOID_PTR mutex) {
    struct waited_mutex *waited = mutex;
    bool is_free = waited->waiting == 0;
    check(is_free, "no thread waits for the mutex that DestroyMutex is given");
    given_back++;
    if (!is_free)
        return CKR_MUTEX_BAD;
    pthread_mutex_destroy(&waited->mutex);
    free(waited);
    return CKR_OK;
}

static CK_RV lock_waited(CK_VOID_PTR mutex) {
    struct waited_mutex *waited = mutex;
    waited->waiting++;
    pthread_mutex_lock(&waited->mutex);
    waited->waiting--;
    if (starts_waiting)
        start_waiting(waited);
    return CKR_OK;
}

static CK_RV unlock_waited(CK_VOID_PTR mutex) {
    struct waited_mutex *waited = mutex;
    pthread_mutex_unlock(&waited->mutex);
    return CKR_OK;
}

/* C_Finalize has the mutex when the others begin to wait for it. The last of them gives it back. */
static void test_threads_that_wait(void) {
    CK_C_INITIALIZE_ARGS arguments = {
        .CreateMutex = create_waited,
        .DestroyMutex = destroy_waited,
        .LockMutex = lock_waited,
        .UnlockMutex = unlock_waited,
    };
    fill_large();
    current_session = begin_token_with(&arguments);
    begin_sha(CKM_SHA256);
    length = sizeof result;
    given_back = 0;
    starts_waiting = true;
    EXPECT(CKR_OK, p11->C_Finalize(NULL));
    for (int i = 0; i < WAITING; i++)
        CHECK(pthread_join(waiting_threads[i], NULL) == 0);
    CHECK(given_back == 1);
    EXPECT(CKR_CRYPTOKI_NOT_INITIALIZED, ask_for_session());
    begin_token();
    end_token();
}

/* Two mutexes of the application, one after the other, each with how often it is locked. */
static int mutexes_in_turn[2], mutexes_made;

static CK_RV create_next(CK_VOID_PTR_PTR mutex) {
    *mutex = &mutexes_in_turn[mutexes_made++];
    return CKR_OK;
}

static CK_RV destroy_any(CK_VOID_PTR mutex) {
    (void)mutex;
    return CKR_OK;
}

static CK_RV lock_any(CK_VOID_PTR mutex) {
    if (locks_until_change > 0 && --locks_until_change == 0)
        change();
    ++*(int *)mutex;
    return CKR_OK;
}

static CK_RV unlock_any(CK_VOID_PTR mutex) {
    --*(int *)mutex;
    return CKR_OK;
}

static void begin_with_next_mutex(void) {
    CK_C_INITIALIZE_ARGS arguments = {
        .CreateMutex = create_next,
        .DestroyMutex = destroy_any,
        .LockMutex = lock_any,
        .UnlockMutex = unlock_any,
    };
    EXPECT(CKR_OK, p11->C_Initialize(&arguments));
    current_session = log_in();
}

static void begin_anew_with_next_mutex(void) {
    EXPECT(CKR_OK, p11->C_Finalize(NULL));
    begin_with_next_mutex();
}

/* A call that has waited for a mutex that isn't the library's any more isn't made under it. */
static void test_another_mutex(void) {
    mutexes_made = 0;
    begin_with_next_mutex();
    locks_until_change = 1;
    change = begin_anew_with_next_mutex;
    EXPECT(CKR_CRYPTOKI_NOT_INITIALIZED, ask_for_session());
    CHECK(mutexes_made == 2 && mutexes_in_turn[0] == 0 && mutexes_in_turn[1] == 0);
    EXPECT(CKR_OK, ask_for_session());
    end_token();
}

/* The new token takes no harm from the update of the old one. */
static void test_update_and_another_mutex(void) {
    fill_large();
    mutexes_made = 0;
    begin_with_next_mutex();
    begin_sha(CKM_SHA256);
    locks_until_change = LOCKS_OF_PIECE + 1;
    change = begin_anew_with_next_mutex;
    EXPECT(CKR_CRYPTOKI_NOT_INITIALIZED, update_with_pieces());
    CHECK(locks_until_change == 0 && mutexes_made == 2);
    EXPECT(CKR_OK, ask_for_session());
    end_token();
}

static void *ask_behind_end(void *ignored) {
    EXPECT(CKR_CRYPTOKI_NOT_INITIALIZED, ask_for_session());
    return ignored;
}

static pthread_t asking_thread;
static bool has_begun, has_ended;

/* For so long only where the thread would wait without end. */
static CK_RV destroy_and_wait(CK_VOID_PTR mutex) {
    enum { MOST_SECONDS = 30 };
    struct timespec limit;
    (void)mutex;
    clock_gettime(CLOCK_REALTIME, &limit);
    limit.tv_sec += MOST_SECONDS;
    if (pthread_create(&asking_thread, NULL, ask_behind_end, NULL) != 0)
        exit(2);
    has_begun = true;
    has_ended = pthread_timedjoin_np(asking_thread, NULL, &limit) == 0;
    return CKR_OK;
}

/* C_Finalize calls DestroyMutex without a lock, so that it may wait for a thread that calls. */
static void test_destroying_that_waits(void) {
    CK_C_INITIALIZE_ARGS arguments = {
        .CreateMutex = create_next,
        .DestroyMutex = destroy_and_wait,
        .LockMutex = lock_any,
        .UnlockMutex = unlock_any,
    };
    mutexes_made = 0;
    has_begun = has_ended = false;
    EXPECT(CKR_OK, p11->C_Initialize(&arguments));
    EXPECT(CKR_OK, p11->C_Finalize(NULL));
    check(has_ended, "the call of a thread that DestroyMutex waits for ends");
    if (has_begun && !has_ended)
        pthread_join(asking_thread, NULL);
    EXPECT(CKR_CRYPTOKI_NOT_INITIALIZED, ask_for_session());
}

static CK_RV create_null(CK_VOID_PTR_PTR mutex) {
    *mutex = NULL;
    return CKR_OK;
}

static CK_RV destroy_null(CK_VOID_PTR mutex) {
    (void)mutex;
    return CKR_MUTEX_BAD;
}

static CK_RV unlock_null(CK_VOID_PTR mutex) {
    (void)mutex;
    return CKR_MUTEX_NOT_LOCKED;
}

static CK_RV lock_null(CK_VOID_PTR mutex) {
    if (locks_until_change > 0 && --locks_until_change == 0)
        change();
    return mutex == NULL ? CKR_OK : CKR_MUTEX_BAD;
}

/* What an application has as its mutex is its own affair. A call that was made is answered whatever
 * the functions for unlocking and destroying say. */
static void test_mutex_that_is_null(void) {
    CK_C_INITIALIZE_ARGS arguments = {
        .CreateMutex = create_null,
        .DestroyMutex = destroy_null,
        .LockMutex = lock_null,
        .UnlockMutex = unlock_null,
    };
    EXPECT(CKR_OK, p11->C_Initialize(&arguments));
    current_session = log_in();
    EXPECT(CKR_OK, ask_for_session());
    locks_until_change = 1;
    change = finalize;
    EXPECT(CKR_CRYPTOKI_NOT_INITIALIZED, ask_for_session());
    CHECK(locks_until_change == 0);
    EXPECT(CKR_OK, p11->C_Initialize(&arguments));
    EXPECT(CKR_OK, p11->C_Finalize(NULL));
}

/* The journal in memory is then long enough to be cut. */
static void close_sessions(void) {
    CK_TOKEN_INFO info;
    EXPECT(CKR_OK, p11->C_CloseAllSessions(0));
    for (int i = 0; i < 2000; i++)
        EXPECT(CKR_OK, p11->C_GetTokenInfo(0, &info));
}

static void test_update_and_closed_sessions(void) {
    fill_large();
    for (int locks_before = 1; locks_before <= 2 * LOCKS_OF_PIECE; locks_before++) {
        begin_with_mutexes();
        begin_sha(CKM_SHA256);
        locks_until_change = locks_before;
        change = close_sessions;
        EXPECT(CKR_SESSION_HANDLE_INVALID, p11->C_DigestUpdate(current_session, large, LARGE));
        CHECK(locks_until_change == 0);
        EXPECT(CKR_OK, p11->C_OpenSession(0, read_write, NULL, NULL, &current_session));
        end_token();
    }
}

/* ---- Threads that wait for the module's own mutex */

enum { ASKING = 4, ASKS = 200000, MOST_SLEEPS = 4000, TRIES = 5 };

static void *ask_often(void *has_failed) {
    for (int i = 0; i < ASKS; i++) {
        if (ask_for_session() != CKR_OK)
            *(atomic_bool *)has_failed = true;
    }
    return NULL;
}

/* How often threads sleep that ask at once. */
static long count_sleeps(atomic_bool *has_failed) {
    struct rusage before, after;
    pthread_t threads[ASKING];
    getrusage(RUSAGE_SELF, &before);
    for (int i = 0; i < ASKING; i++) {
        if (pthread_create(&threads[i], NULL, ask_often, has_failed) != 0)
            exit(2);
    }
    for (int i = 0; i < ASKING; i++)
        pthread_join(threads[i], NULL);
    getrusage(RUSAGE_SELF, &after);
    return after.ru_nvcsw - before.ru_nvcsw;
}

/* A thread that finds the mutex taken looks again before it sleeps, since most calls are short. One
 * that is written to a file isn't. Where the system takes the processor from the thread that has
 * the mutex, the others may sleep, so this is tried a few times. */
static void test_seldom_asleep(void) {
    atomic_bool has_failed = false;
    long least = LONG_MAX;
    keep_journals(NULL);
    current_session = begin_token();
    keep_journals(has_journals ? folder : NULL);
    for (int i = 0; i < TRIES && least >= MOST_SLEEPS; i++) {
        long sleeps = count_sleeps(&has_failed);
        least = sleeps < least ? sleeps : least;
    }
    end_token();
    CHECK(!has_failed);
    CHECK(least < MOST_SLEEPS);
}

static const struct test tests[] = {
    {"a long message is taken in as it was when the call was made", test_changed_messages},
    {"only for a long message that is taken in the lock is taken three times",
     test_locks_of_messages},
    {"an application's lock that fails in a call with a long message",
     test_failing_lock_of_messages},
    {"a long message is taken in while the lock is free", test_work_without_lock},
    {"the lock is taken once for a search in pieces", test_lock_of_search},
    {"the work on a long message doesn't count for another token", test_work_of_another_token},
    {"the work on a long message doesn't count behind a cut of the journal", test_work_and_cut},
    {"a journal file is kept from the middle of a long message on, or isn't any more",
     test_journal_in_between},
    {"the work on a long message doesn't count for another operation",
     test_work_of_another_operation},
    {"a piece is added while a long one is taken in", test_piece_in_between},
    {"an application's lock that fails between the pieces of an update",
     test_lock_that_fails_between},
    {"a piece of an update isn't taken by another token", test_update_and_another_token},
    {"sessions are closed between the pieces of an update", test_update_and_closed_sessions},
    {"an application's lock that fails where another token has come between",
     test_failing_lock_and_another_token},
    {"the library is finalized while a call waits for the lock", test_finalized_while_waiting},
    {"the library is finalized while a call gives the lock back", test_finalized_while_unlocking},
    {"the library is initialized anew while a call waits for the lock",
     test_initialized_while_waiting},
    {"the library is finalized while threads wait for the lock", test_threads_that_wait},
    {"a call has waited for a mutex that isn't the library's any more", test_another_mutex},
    {"an update has waited for a mutex that isn't the library's any more",
     test_update_and_another_mutex},
    {"a thread that DestroyMutex waits for calls the library", test_destroying_that_waits},
    {"an application's mutex that is NULL", test_mutex_that_is_null},
    {"threads that wait for the module's own mutex seldom sleep", test_seldom_asleep},
};

int run_lock_tests(const char *name) {
    return run_tests(name, tests, sizeof tests / sizeof *tests);
}
