/*
 * The proved token, as the static library of crates/ck_module exports it. Each function here has a
 * contract in that crate, which says what it does; what a caller in C owes is said at it.
 *
 * - A `struct token` is used by one thread at a time.
 * - A pointer is never NULL, not even that of a list without elements.
 * - Lengths, and the rooms for values and texts, are in bytes; the room of a list is a number of
 *   elements.
 * - What a function that makes a call answers is one of `enum outcome`. The reply to the last call
 *   that was answered stays in the token until the next one is, and is read by the functions that
 *   stand last here, which make no call.
 */
#ifndef OSPREYRACK_TOKEN_H
#define OSPREYRACK_TOKEN_H

#include <stdbool.h>
#include <stddef.h>
#include <stdint.h>

/* Of a function that takes or gives a list: sanitizers look whether a pointer that it is given is
 * NULL. */
#define NOT_NULL __attribute__((nonnull))

/* Where a token lies. */
struct token {
    void *at;
};

/* What comes of a call. */
enum outcome {
    ANSWERED = 0,  /* it was answered, and stands in the token's journal */
    NO_CALL = 1,   /* the line is empty, a comment or a bad one, or no call was given; nothing has
                      changed */
    NO_MEMORY = 2, /* there was no memory for it; nothing has changed, except that the journal may
                      have more room */
};

/* ---- A token's life */

/* How many bytes a token takes. */
size_t ospreyrack_size(void);

/* Makes a new token of the largest limits in room of that many bytes, whose address is a multiple
 * of 16. It takes no other memory. */
void ospreyrack_make(void *at);

/* Makes the token a new one, and gives back all memory that it has taken. */
void ospreyrack_reset(struct token *token);

/* What comes of a cut of the token's journal. */
enum cut {
    CUT = 0,           /* it has no entry now, and no later reply differs by it */
    SESSION_OPEN = 1,  /* a session is open, so nothing has changed */
    CUT_NO_MEMORY = 2, /* there was no memory for it; nothing has changed */
};

uint32_t ospreyrack_cut(struct token *token);

/* Makes room in the token's journal for this many more entries, and says whether there was memory
 * for it. With room for one, the next ospreyrack_session_cancel isn't out of memory; a call
 * that finds no memory leaves the room. */
bool ospreyrack_reserve(struct token *token, uint64_t count);

/* How many entries the token's journal has. */
uint64_t ospreyrack_entries(struct token *token);

/* ---- Calls by lines */

/* Makes the call of a line of the script language, which stands here without its line end. */
uint32_t ospreyrack_line(struct token *token, const uint8_t *line, size_t length) NOT_NULL;

/* Makes the text of the reply, without a line end: ANSWERED. Or NO_MEMORY, and then nothing is said
 * of the text. */
uint32_t ospreyrack_write_text(struct token *token);

/* The length of the text that was last made. Its bytes, or as many of them as there is room for,
 * are copied to `out`. */
size_t ospreyrack_text(struct token *token, uint8_t *out, size_t room) NOT_NULL;

/* ---- Calls by their arguments, each with the name of the standard's function, except
 * ospreyrack_set_key_state. `caller` is the number that the call's entry has in the journal. */

/* An attribute of a template: its type, and the length of its value. The values stand one after the
 * other in a list of bytes beside. */
struct item {
    uint64_t kind;
    uint64_t length;
};

/* What is asked of an attribute: its type, and the room for its value. Without `has_room` only the
 * value's length is asked for. */
struct query {
    uint64_t kind;
    uint64_t room;
    bool has_room;
};

uint32_t ospreyrack_open_session(struct token *token, uint32_t caller, uint64_t flags);
uint32_t ospreyrack_close_session(struct token *token, uint32_t caller, uint64_t session);
uint32_t ospreyrack_close_all_sessions(struct token *token, uint32_t caller);
uint32_t ospreyrack_logout(struct token *token, uint32_t caller, uint64_t session);
uint32_t ospreyrack_get_session_info(struct token *token, uint32_t caller, uint64_t session);
uint32_t ospreyrack_get_token_info(struct token *token, uint32_t caller);
uint32_t ospreyrack_session_cancel(struct token *token, uint32_t caller, uint64_t session,
                                   uint64_t flags);
uint32_t ospreyrack_create_object(struct token *token, uint32_t caller, uint64_t session,
                                  const struct item *items, size_t count,
                                  const uint8_t *values, size_t length) NOT_NULL;
uint32_t ospreyrack_get_attribute_value(struct token *token, uint32_t caller, uint64_t session,
                                        uint64_t object, const struct query *queries,
                                        size_t count) NOT_NULL;
uint32_t ospreyrack_set_key_state(struct token *token, uint32_t caller, uint64_t session,
                                  uint64_t key, uint64_t state);
uint32_t ospreyrack_destroy_object(struct token *token, uint32_t caller, uint64_t session,
                                   uint64_t object);
uint32_t ospreyrack_find_objects_init(struct token *token, uint32_t caller, uint64_t session,
                                      const struct item *items, size_t count,
                                      const uint8_t *values, size_t length) NOT_NULL;
uint32_t ospreyrack_find_objects(struct token *token, uint32_t caller, uint64_t session,
                                 uint64_t max);
uint32_t ospreyrack_find_objects_final(struct token *token, uint32_t caller, uint64_t session);
uint32_t ospreyrack_digest_init(struct token *token, uint32_t caller, uint64_t session,
                                uint64_t mechanism, const uint8_t *parameter,
                                size_t length) NOT_NULL;
uint32_t ospreyrack_digest_final(struct token *token, uint32_t caller, uint64_t session,
                                 bool has_room, uint64_t room);
uint32_t ospreyrack_sign_init(struct token *token, uint32_t caller, uint64_t session,
                              uint64_t mechanism, const uint8_t *parameter, size_t length,
                              uint64_t key) NOT_NULL;
uint32_t ospreyrack_sign_final(struct token *token, uint32_t caller, uint64_t session,
                               bool has_room, uint64_t room);
uint32_t ospreyrack_verify_init(struct token *token, uint32_t caller, uint64_t session,
                                uint64_t mechanism, const uint8_t *parameter, size_t length,
                                uint64_t key) NOT_NULL;
uint32_t ospreyrack_verify_final(struct token *token, uint32_t caller, uint64_t session,
                                 const uint8_t *signature, size_t length) NOT_NULL;

/* ---- Calls that bring a message
 *
 * Such a call lies in memory of C's. First it is given, with a copy of its message; then the token
 * makes it. Where the message is long, its work is begun by the token before that, and the bytes
 * are taken in while other threads use the token. A call is used by one thread at a time. */

/* Where such a call lies. */
struct message_call {
    void *at;
};

/* How many bytes it takes, without the message. */
size_t ospreyrack_message_size(void);

/* Makes the place of a call in room of that many bytes, whose address is a multiple of 16. There is
 * no call yet. It takes no other memory. */
void ospreyrack_message_make(void *at);

/* Takes the call away, and gives back all memory that it has taken. */
void ospreyrack_message_reset(struct message_call *call);

/* Give the call of this name: ospreyrack_call makes it. Where there is no memory for it they answer
 * false, and nothing has changed. */
bool ospreyrack_digest(struct message_call *call, uint64_t session, const uint8_t *bytes,
                       size_t length, bool has_room, uint64_t room) NOT_NULL;
bool ospreyrack_digest_update(struct message_call *call, uint64_t session, const uint8_t *bytes,
                              size_t length) NOT_NULL;
bool ospreyrack_sign(struct message_call *call, uint64_t session, const uint8_t *bytes,
                     size_t length, bool has_room, uint64_t room) NOT_NULL;
bool ospreyrack_sign_update(struct message_call *call, uint64_t session, const uint8_t *bytes,
                            size_t length) NOT_NULL;
bool ospreyrack_verify(struct message_call *call, uint64_t session, const uint8_t *bytes,
                       size_t length, const uint8_t *signature, size_t signature_length) NOT_NULL;
bool ospreyrack_verify_update(struct message_call *call, uint64_t session, const uint8_t *bytes,
                              size_t length) NOT_NULL;

/* Gives the call of a line of the script language, which stands here without its line end. Where
 * the line means no call it answers false, too. */
bool ospreyrack_message_line(struct message_call *call, const uint8_t *line,
                             size_t length) NOT_NULL;

/* Begins the work on a long message. Where there is none to be done before the call, it answers
 * false. */
bool ospreyrack_begin_work(struct token *token, struct message_call *call);

/* Takes in the bytes of the message, where the work has begun. */
void ospreyrack_take_in(struct message_call *call);

/* Makes the call, and takes it away. Where its work was begun, that was by the same token, which
 * has been neither reset nor cut since. The work counts only where the call's operation is as it
 * was then. */
uint32_t ospreyrack_call(struct token *token, uint32_t caller, struct message_call *call);

/* ---- The reply to the last answered call */

/* Its return code. */
uint64_t ospreyrack_code(struct token *token);

/* The handle of a new session or object, else 0. */
uint64_t ospreyrack_handle(struct token *token);

/* A session's state and flags; zeros where the reply has none. */
struct session {
    uint64_t state;
    uint64_t flags;
};

void ospreyrack_session(struct token *token, struct session *out);

/* The token's flags, and its counts of sessions; zeros where the reply has none. */
struct token_info {
    uint64_t flags;
    uint64_t limit;       /* how many sessions may be open at once */
    uint64_t sessions;    /* how many are open */
    uint64_t rw_sessions; /* how many of these are read/write sessions */
};

void ospreyrack_token_info(struct token *token, struct token_info *out);

/* How many mechanisms, or handles of found objects, the reply has. They, or as many of them as
 * there is room for, are copied to `out`. */
size_t ospreyrack_mechanisms(struct token *token, uint64_t *out, size_t room) NOT_NULL;
size_t ospreyrack_handles(struct token *token, uint64_t *out, size_t room) NOT_NULL;

/* The answer to a query, counted from 0. */
enum answer_kind {
    UNAVAILABLE = 0, /* hidden, or not an attribute of the object, or too little room */
    LENGTH = 1,      /* the value's length */
    VALUE = 2,       /* the value, of that length */
};

struct answer {
    uint64_t kind;
    uint64_t length;
};

/* Unavailable where the reply has no such answer. */
void ospreyrack_answer(struct token *token, size_t index, struct answer *out);

/* The length of the value that this query is answered, and 0 where it isn't answered one. The
 * value's bytes, or as many of them as there is room for, are copied to `out`. */
size_t ospreyrack_value(struct token *token, size_t index, uint8_t *out, size_t room) NOT_NULL;

/* The length of the digest or signature that the reply has or tells the length of, else 0. */
uint64_t ospreyrack_length(struct token *token);

/* The length of the digest or signature that the reply has, and 0 where it has none. Its bytes, or
 * as many of them as there is room for, are copied to `out`. */
size_t ospreyrack_bytes(struct token *token, uint8_t *out, size_t room) NOT_NULL;

#endif
