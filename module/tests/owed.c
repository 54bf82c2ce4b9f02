/*
 * What C owes to the token's library (token.h), looked at where C calls it, since the library isn't
 * sanitized; and that C makes by a line only the calls that have no other way. The script run links
 * this into the module that finds bad addresses: there a call of the library's function comes to
 * the one of its name with `__wrap_` in front. What isn't as it must be ends the program.
 */
#include <pthread.h>
#include <sanitizer/asan_interface.h>
#include <stdio.h>
#include <stdlib.h>
#include <string.h>

#include "../module.h"

enum { LONGEST_OUTPUT = 64, ALIGNMENT = 16 };

static void owe(bool is_good, const char *name, const char *what) {
    if (is_good)
        return;
    fprintf(stderr, "owed: %s: %s\n", name, what);
    abort();
}

/* Memory of the program's, of this many bytes. */
static void owe_memory(const char *name, const void *at, size_t length) {
    owe(at != NULL, name, "a pointer is NULL");
    owe(__asan_region_is_poisoned((void *)(uintptr_t)at, length) == NULL, name,
        "not all of its bytes are the program's");
}

static void owe_list(const char *name, const void *at, size_t count, size_t size) {
    owe(count <= SIZE_MAX / size, name, "no memory has that many elements");
    owe_memory(name, at, count * size);
}

/* ---- Work that was begun
 *
 * The calls with a message whose work a token has begun, and which it hasn't made yet. */

enum { MOST_WORKS = 256 };

static struct begun {
    const void *message; /* where the call lies, or NULL */
    const void *token;   /* where the token lies, or NULL where it was reset or cut since */
} works[MOST_WORKS];

static pthread_mutex_t works_mutex = PTHREAD_MUTEX_INITIALIZER;

static struct begun *work_of(const void *message) {
    for (size_t i = 0; i < MOST_WORKS; i++) {
        if (works[i].message == message)
            return &works[i];
    }
    return NULL;
}

static void note_begun(const void *message, const void *token) {
    pthread_mutex_lock(&works_mutex);
    struct begun *work = work_of(message);
    if (work == NULL)
        work = work_of(NULL);
    owe(work != NULL, "ospreyrack_begin_work", "more works are begun than this test has room for");
    *work = (struct begun){message, token};
    pthread_mutex_unlock(&works_mutex);
}

static void note_no_work(const void *message) {
    pthread_mutex_lock(&works_mutex);
    struct begun *work = work_of(message);
    if (work != NULL)
        *work = (struct begun){NULL, NULL};
    pthread_mutex_unlock(&works_mutex);
}

/* The token begins a journal, so it can't make a call any more whose work it has begun. */
static void note_new_journal(const void *token) {
    pthread_mutex_lock(&works_mutex);
    for (size_t i = 0; i < MOST_WORKS; i++) {
        if (works[i].token == token)
            works[i].token = NULL;
    }
    pthread_mutex_unlock(&works_mutex);
}

static void owe_begun(const char *name, const void *message) {
    pthread_mutex_lock(&works_mutex);
    bool is_begun = work_of(message) != NULL;
    pthread_mutex_unlock(&works_mutex);
    owe(is_begun, name, "no work was begun");
}

static void owe_same_token(const char *name, const void *message, const void *token) {
    pthread_mutex_lock(&works_mutex);
    const struct begun *work = work_of(message);
    bool is_same = work == NULL || work->token == token;
    pthread_mutex_unlock(&works_mutex);
    owe(is_same, name, "the work was begun by another token, or before a reset or a cut");
}

/* ---- The functions */

/* Declares a function of the library and the one in front of it, which is to hand its arguments
 * on. */
#define WRAP(type, name, ...)                                                                      \
    type __real_##name(__VA_ARGS__);                                                               \
    type __wrap_##name(__VA_ARGS__);                                                               \
    type __wrap_##name(__VA_ARGS__)

WRAP(void, ospreyrack_make, void *at) {
    owe_memory(__func__, at, ospreyrack_size());
    owe((uintptr_t)at % ALIGNMENT == 0, __func__, "the address isn't aligned");
    __real_ospreyrack_make(at);
}

WRAP(void, ospreyrack_message_make, void *at) {
    owe_memory(__func__, at, ospreyrack_message_size());
    owe((uintptr_t)at % ALIGNMENT == 0, __func__, "the address isn't aligned");
    __real_ospreyrack_message_make(at);
}

WRAP(void, ospreyrack_reset, struct token *token) {
    note_new_journal(token->at);
    __real_ospreyrack_reset(token);
}

WRAP(uint32_t, ospreyrack_cut, struct token *token) {
    uint32_t outcome = __real_ospreyrack_cut(token);
    if (outcome == CUT)
        note_new_journal(token->at);
    return outcome;
}

WRAP(void, ospreyrack_message_reset, struct message_call *call) {
    note_no_work(call->at);
    __real_ospreyrack_message_reset(call);
}

WRAP(bool, ospreyrack_begin_work, struct token *token, struct message_call *call) {
    bool has_begun = __real_ospreyrack_begin_work(token, call);
    if (has_begun)
        note_begun(call->at, token->at);
    return has_begun;
}

WRAP(void, ospreyrack_take_in, struct message_call *call) {
    owe_begun(__func__, call->at);
    __real_ospreyrack_take_in(call);
}

WRAP(uint32_t, ospreyrack_call, struct token *token, uint32_t caller, struct message_call *call) {
    owe_same_token(__func__, call->at, token->at);
    note_no_work(call->at);
    return __real_ospreyrack_call(token, caller, call);
}

/* Whether the call of a line has no function with arguments of its own. */
static bool goes_by_line(const uint8_t *line, size_t length) {
    static const char *const names[] = {
        "InitToken", "InitPIN", "SetPIN", "Login", "GetMechanismList",
        "GenerateKey", "CopyObject", "SetAttributeValue",
    };
    const uint8_t *start = memchr(line, ' ', length);
    if (start == NULL)
        return false;
    size_t rest = length - (size_t)(++start - line);
    const uint8_t *end = memchr(start, ' ', rest);
    size_t count = end == NULL ? rest : (size_t)(end - start);
    for (size_t i = 0; i < sizeof names / sizeof *names; i++) {
        if (strlen(names[i]) == count && memcmp(names[i], start, count) == 0)
            return true;
    }
    return false;
}

/* Without a journal file only these calls are made by lines, since a line takes longer. */
WRAP(uint32_t, ospreyrack_line, struct token *token, const uint8_t *line, size_t length) {
    owe_memory(__func__, line, length);
    owe(!library.is_initialized || library.journal.is_kept || goes_by_line(line, length), __func__,
        "the call has a function with arguments");
    return __real_ospreyrack_line(token, line, length);
}

WRAP(bool, ospreyrack_message_line, struct message_call *call, const uint8_t *line,
     size_t length) {
    owe_memory(__func__, line, length);
    return __real_ospreyrack_message_line(call, line, length);
}

/* Those that take a template. */
#define WRAP_TEMPLATE(name)                                                                        \
    WRAP(uint32_t, name, struct token *token, uint32_t caller, uint64_t session,                   \
         const struct item *items, size_t count, const uint8_t *values, size_t length) {           \
        owe_list(__func__, items, count, sizeof *items);                                           \
        owe_memory(__func__, values, length);                                                      \
        return __real_##name(token, caller, session, items, count, values, length);                \
    }

WRAP_TEMPLATE(ospreyrack_create_object)
WRAP_TEMPLATE(ospreyrack_find_objects_init)

WRAP(uint32_t, ospreyrack_get_attribute_value, struct token *token, uint32_t caller,
     uint64_t session, uint64_t object, const struct query *queries, size_t count) {
    owe_list(__func__, queries, count, sizeof *queries);
    return __real_ospreyrack_get_attribute_value(token, caller, session, object, queries, count);
}

WRAP(uint32_t, ospreyrack_digest_init, struct token *token, uint32_t caller, uint64_t session,
     uint64_t mechanism, const uint8_t *parameter, size_t length) {
    owe_memory(__func__, parameter, length);
    return __real_ospreyrack_digest_init(token, caller, session, mechanism, parameter, length);
}

/* Those that take a mechanism and a key. */
#define WRAP_MECHANISM(name)                                                                       \
    WRAP(uint32_t, name, struct token *token, uint32_t caller, uint64_t session,                   \
         uint64_t mechanism, const uint8_t *parameter, size_t length, uint64_t key) {              \
        owe_memory(__func__, parameter, length);                                                   \
        return __real_##name(token, caller, session, mechanism, parameter, length, key);           \
    }

WRAP_MECHANISM(ospreyrack_sign_init)
WRAP_MECHANISM(ospreyrack_verify_init)

WRAP(uint32_t, ospreyrack_verify_final, struct token *token, uint32_t caller, uint64_t session,
     const uint8_t *signature, size_t length) {
    owe_memory(__func__, signature, length);
    return __real_ospreyrack_verify_final(token, caller, session, signature, length);
}

/* Those that take a message and room for a digest or a signature, and those that take a piece. */
#define WRAP_MESSAGE(name)                                                                         \
    WRAP(bool, name, struct message_call *call, uint64_t session, const uint8_t *bytes,            \
         size_t length, bool has_room, uint64_t room) {                                            \
        owe_memory(__func__, bytes, length);                                                       \
        return __real_##name(call, session, bytes, length, has_room, room);                        \
    }

#define WRAP_PIECE(name)                                                                           \
    WRAP(bool, name, struct message_call *call, uint64_t session, const uint8_t *bytes,            \
         size_t length) {                                                                          \
        owe_memory(__func__, bytes, length);                                                       \
        return __real_##name(call, session, bytes, length);                                        \
    }

WRAP_MESSAGE(ospreyrack_digest)
WRAP_MESSAGE(ospreyrack_sign)
WRAP_PIECE(ospreyrack_digest_update)
WRAP_PIECE(ospreyrack_sign_update)
WRAP_PIECE(ospreyrack_verify_update)

WRAP(bool, ospreyrack_verify, struct message_call *call, uint64_t session, const uint8_t *bytes,
     size_t length, const uint8_t *signature, size_t signature_length) {
    owe_memory(__func__, bytes, length);
    owe_memory(__func__, signature, signature_length);
    return __real_ospreyrack_verify(call, session, bytes, length, signature, signature_length);
}

/* Those that give a list, for which there is this much room. */
#define WRAP_LIST(name, element)                                                                   \
    WRAP(size_t, name, struct token *token, element *out, size_t room) {                           \
        owe_list(__func__, out, room, sizeof *out);                                                \
        return __real_##name(token, out, room);                                                    \
    }

WRAP_LIST(ospreyrack_text, uint8_t)
WRAP_LIST(ospreyrack_mechanisms, uint64_t)
WRAP_LIST(ospreyrack_handles, uint64_t)

WRAP(size_t, ospreyrack_value, struct token *token, size_t index, uint8_t *out, size_t room) {
    owe_memory(__func__, out, room);
    return __real_ospreyrack_value(token, index, out, room);
}

/* The application's room may be one that no memory has. */
WRAP(size_t, ospreyrack_bytes, struct token *token, uint8_t *out, size_t room) {
    owe(room <= LONGEST_OUTPUT, __func__,
        "there is more room than the longest digest or signature has");
    owe_memory(__func__, out, room);
    return __real_ospreyrack_bytes(token, out, room);
}
