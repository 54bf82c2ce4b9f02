/*
 * Calls of the token. Where a journal file is kept, each call except a cancel is made by a line.
 * Without one a call is made by its arguments, where the token has a function for that, and else by
 * a line. A call that has work is made by its work. Who calls `make_call` reads the reply.
 */
#include "module.h"

#include <stdatomic.h>

/* Bounds beyond which an application's number is taken for a mistake. With them the lengths of a
 * template can be added without overflow. */
static const CK_ULONG most_attributes = 1 << 20;
static const CK_ULONG longest_value = 1 << 30;

/* From how many entries on the token's journal in memory is cut. */
static const uint64_t cut_from = 1000;

uint64_t journals_begun;

/* The token with the journal of this number in `journals_begun` answers no call any more. Outside
 * the library's state, since it is set without the lock. */
static _Atomic uint64_t stopped_journal;

/* ---- Arguments */

struct bytes bytes_of(const void *at, CK_ULONG length, size_t longest) {
    static const uint8_t none[1];
    if (at == NULL && length == 0)
        return (struct bytes){none, 0};
    if (length >= LONGEST_MEMORY)
        return (struct bytes){NULL, 1};
    return (struct bytes){at, length > longest ? longest + 1 : length};
}

struct bytes pin_of(const CK_UTF8CHAR *at, CK_ULONG length) {
    return bytes_of(at, at == NULL ? 1 : length, LONGEST_PIN);
}

struct bytes parameter_of(const CK_MECHANISM *mechanism) {
    return bytes_of(mechanism->pParameter, mechanism->ulParameterLen, LONGEST_PARAMETER);
}

static bool is_missing(struct bytes bytes) {
    return bytes.at == NULL && bytes.length > 0;
}

static CK_RV check_template(const CK_ATTRIBUTE *attributes, CK_ULONG count) {
    for (CK_ULONG i = 0; i < count; i++) {
        CK_ULONG length = attributes[i].ulValueLen;
        if (length > longest_value || (attributes[i].pValue == NULL && length > 0))
            return CKR_ATTRIBUTE_VALUE_INVALID;
    }
    return CKR_OK;
}

/* No buffer has such a length: it may be the CK_UNAVAILABLE_INFORMATION of a call before. */
static CK_RV check_queries(const CK_ATTRIBUTE *queries, CK_ULONG count) {
    for (CK_ULONG i = 0; i < count; i++) {
        if (queries[i].pValue != NULL && queries[i].ulValueLen >= LONGEST_MEMORY)
            return CKR_ARGUMENTS_BAD;
    }
    return CKR_OK;
}

CK_RV check_call(const struct call *call) {
    if (is_missing(call->pin) || is_missing(call->new_pin) || is_missing(call->bytes)
        || is_missing(call->signature))
        return CKR_ARGUMENTS_BAD;
    if (call->mechanism != NULL && is_missing(parameter_of(call->mechanism)))
        return CKR_MECHANISM_PARAM_INVALID;
    if (call->count > most_attributes || (call->attributes == NULL && call->count > 0))
        return CKR_ARGUMENTS_BAD;
    return call->name == GET_ATTRIBUTE_VALUE ? check_queries(call->attributes, call->count)
                                             : check_template(call->attributes, call->count);
}

/* How many threads have called, and this one's number, or 0 before its first call. Threads are
 * numbered from 1 to 8 in the order in which they first call; the ninth is 1 again. The room for a
 * thread's number is taken when the library is loaded: at a call, the C library would end the
 * process where it is refused. */
static uint32_t callers;
static _Thread_local uint32_t own_number __attribute__((tls_model("initial-exec")));

uint32_t caller_number(void) {
    if (own_number == 0)
        own_number = callers++ % 8 + 1;
    return own_number;
}

void forget_callers(void) {
    callers = 0;
    own_number = 0;
}

/* ---- Calls by lines */

bool add_reply(struct buffer *buffer) {
    uint8_t none;
    if (ospreyrack_write_text(&library.token) != ANSWERED)
        return false;
    size_t length = ospreyrack_text(&library.token, &none, 0);
    if (!buffer_reserve(buffer, length))
        return false;
    buffer->length += ospreyrack_text(&library.token, buffer->bytes + buffer->length, length);
    return true;
}

uint32_t answer_line(const uint8_t *line, size_t length) {
    if (!reserve_entry(length))
        return NO_MEMORY;
    uint32_t outcome = ospreyrack_line(&library.token, line, length);
    if (outcome == ANSWERED)
        add_entry(line, length);
    return outcome;
}

/* The line of a call: that of its work, or else one that is written now. NULL without memory. */
static const struct buffer *line_of(const struct call *call) {
    const struct buffer *line = line_of_work(call);
    if (line != NULL)
        return line;
    return write_line(call, caller_number(), &library.line) ? &library.line : NULL;
}

/* Makes the call of a line. Work has read its line already. A cancel goes by its arguments, since
 * that can't be out of memory where the token's journal has room. */
static uint32_t make_written_call(const struct call *call, const struct buffer *line) {
    uint32_t outcome;
    if (call_by_work(call, &outcome))
        return outcome;
    if (call->name == SESSION_CANCEL)
        return ospreyrack_session_cancel(&library.token, caller_number(), call->session,
                                         call->flags);
    return ospreyrack_line(&library.token, line->bytes, line->length);
}

static uint32_t call_by_line(const struct call *call) {
    const struct buffer *line = line_of(call);
    if (line == NULL || !reserve_entry(line->length))
        return NO_MEMORY;
    uint32_t outcome = make_written_call(call, line);
    if (outcome != ANSWERED)
        return outcome;
    add_entry(line->bytes, line->length);
    if (call->label != NULL && ospreyrack_code(&library.token) == CKR_OK)
        set_label(call->label);
    write_journal();
    return ANSWERED;
}

/* ---- Calls by arguments
 *
 * Each switch that makes calls hands those that it doesn't name to the next one. Those that none
 * names go by a line also without a journal file: C_InitToken, the calls on PINs, C_Login,
 * C_GetMechanismList, C_GenerateKey, C_CopyObject and C_SetAttributeValue. */

/* Gathers a template's items, and their values one after the other. The room that is made first is
 * for a template without any: see `buffer_reserve`. */
static bool gather_template(const struct call *call) {
    library.items.length = 0;
    library.values.length = 0;
    bool is_added = buffer_reserve(&library.items, 0) && buffer_reserve(&library.values, 0);
    for (CK_ULONG i = 0; is_added && i < call->count; i++) {
        const CK_ATTRIBUTE *attribute = &call->attributes[i];
        struct item item = {attribute->type, attribute->ulValueLen};
        is_added = buffer_add(&library.items, &item, sizeof item)
            && buffer_add(&library.values, attribute->pValue, item.length);
    }
    return is_added;
}

static bool gather_queries(const struct call *call) {
    library.items.length = 0;
    bool is_added = buffer_reserve(&library.items, 0);
    for (CK_ULONG i = 0; is_added && i < call->count; i++) {
        const CK_ATTRIBUTE *attribute = &call->attributes[i];
        struct query query = {attribute->type, attribute->ulValueLen, attribute->pValue != NULL};
        is_added = buffer_add(&library.items, &query, sizeof query);
    }
    return is_added;
}

static uint32_t call_with_template(const struct call *call, uint32_t caller) {
    if (!gather_template(call))
        return NO_MEMORY;
    const struct item *items = (const void *)library.items.bytes;
    if (call->name == CREATE_OBJECT)
        return ospreyrack_create_object(&library.token, caller, call->session, items, call->count,
                                        library.values.bytes, library.values.length);
    return ospreyrack_find_objects_init(&library.token, caller, call->session, items, call->count,
                                        library.values.bytes, library.values.length);
}

static uint32_t call_with_queries(const struct call *call, uint32_t caller) {
    if (!gather_queries(call))
        return NO_MEMORY;
    return ospreyrack_get_attribute_value(&library.token, caller, call->session, call->object,
                                          (const void *)library.items.bytes, call->count);
}

/* Calls on objects and searches. */
static uint32_t call_on_objects(const struct call *call, uint32_t caller) {
    struct token *token = &library.token;
    CK_ULONG session = call->session;
    switch (call->name) {
    case CREATE_OBJECT:
    case FIND_OBJECTS_INIT:
        return call_with_template(call, caller);
    case GET_ATTRIBUTE_VALUE:
        return call_with_queries(call, caller);
    case SET_KEY_STATE:
        return ospreyrack_set_key_state(token, caller, session, call->object, call->number);
    case DESTROY_OBJECT:
        return ospreyrack_destroy_object(token, caller, session, call->object);
    case FIND_OBJECTS:
        return ospreyrack_find_objects(token, caller, session, call->number);
    case FIND_OBJECTS_FINAL:
        return ospreyrack_find_objects_final(token, caller, session);
    default:
        return call_by_line(call);
    }
}

/* Starts of digests, signing and verifying. */
static uint32_t call_with_mechanism(const struct call *call, uint32_t caller) {
    CK_MECHANISM_TYPE type = call->mechanism->mechanism;
    struct bytes parameter = parameter_of(call->mechanism);
    if (call->name == DIGEST_INIT)
        return ospreyrack_digest_init(&library.token, caller, call->session, type, parameter.at,
                                      parameter.length);
    if (call->name == SIGN_INIT)
        return ospreyrack_sign_init(&library.token, caller, call->session, type, parameter.at,
                                    parameter.length, call->object);
    return ospreyrack_verify_init(&library.token, caller, call->session, type, parameter.at,
                                  parameter.length, call->object);
}

bool give_message(struct message_call *place, const struct call *call) {
    CK_ULONG session = call->session;
    struct bytes bytes = call->bytes;
    struct bytes signature = call->signature;
    struct room room = call->room;
    switch (call->name) {
    case DIGEST:
        return ospreyrack_digest(place, session, bytes.at, bytes.length, room.has_room,
                                 room.length);
    case DIGEST_UPDATE:
        return ospreyrack_digest_update(place, session, bytes.at, bytes.length);
    case SIGN:
        return ospreyrack_sign(place, session, bytes.at, bytes.length, room.has_room, room.length);
    case SIGN_UPDATE:
        return ospreyrack_sign_update(place, session, bytes.at, bytes.length);
    case VERIFY:
        return ospreyrack_verify(place, session, bytes.at, bytes.length, signature.at,
                                 signature.length);
    case VERIFY_UPDATE:
        return ospreyrack_verify_update(place, session, bytes.at, bytes.length);
    default:
        return false;
    }
}

static uint32_t call_with_message(const struct call *call, uint32_t caller) {
    if (!give_message(&library.message, call))
        return NO_MEMORY;
    return ospreyrack_call(&library.token, caller, &library.message);
}

/* Calls that begin or end an operation, and those that bring a message. */
static uint32_t call_on_operation(const struct call *call, uint32_t caller) {
    struct token *token = &library.token;
    CK_ULONG session = call->session;
    struct bytes signature = call->signature;
    struct room room = call->room;
    switch (call->name) {
    case DIGEST_INIT:
    case SIGN_INIT:
    case VERIFY_INIT:
        return call_with_mechanism(call, caller);
    case DIGEST:
    case DIGEST_UPDATE:
    case SIGN:
    case SIGN_UPDATE:
    case VERIFY:
    case VERIFY_UPDATE:
        return call_with_message(call, caller);
    case DIGEST_FINAL:
        return ospreyrack_digest_final(token, caller, session, room.has_room, room.length);
    case SIGN_FINAL:
        return ospreyrack_sign_final(token, caller, session, room.has_room, room.length);
    case VERIFY_FINAL:
        return ospreyrack_verify_final(token, caller, session, signature.at, signature.length);
    default:
        return call_on_objects(call, caller);
    }
}

static uint32_t call_by_arguments(const struct call *call) {
    struct token *token = &library.token;
    uint32_t caller = caller_number();
    CK_ULONG session = call->session;
    uint32_t outcome;
    if (call_by_work(call, &outcome))
        return outcome;
    switch (call->name) {
    case OPEN_SESSION:
        return ospreyrack_open_session(token, caller, call->flags);
    case CLOSE_SESSION:
        return ospreyrack_close_session(token, caller, session);
    case CLOSE_ALL_SESSIONS:
        return ospreyrack_close_all_sessions(token, caller);
    case LOGOUT:
        return ospreyrack_logout(token, caller, session);
    case GET_SESSION_INFO:
        return ospreyrack_get_session_info(token, caller, session);
    case GET_TOKEN_INFO:
        return ospreyrack_get_token_info(token, caller);
    case SESSION_CANCEL:
        return ospreyrack_session_cancel(token, caller, session, call->flags);
    default:
        return call_on_operation(call, caller);
    }
}

/* ---- Both ways */

/* The room that is kept for cancels lies in the journal, so it isn't cut before they are made. */
void cut_journal(void) {
    if (library.cuts_journal && library.updates == 0
        && ospreyrack_entries(&library.token) >= cut_from
        && ospreyrack_cut(&library.token) == CUT)
        journals_begun++;
}

/* What a long template took isn't kept for short ones. The buffers of lines and of the file's text
 * are kept: see `cancel_operation`. */
static void drop_long_lists(void) {
    enum { MOST_KEPT = 1 << 20 };
    if (library.items.room > MOST_KEPT)
        buffer_free(&library.items);
    if (library.values.room > MOST_KEPT)
        buffer_free(&library.values);
}

/* Room in the token's journal for a call's entry, besides those of the cancels that may have to be
 * made. A call takes room for at most one entry, and one that found no memory takes none. */
static bool reserve_room(void) {
    return library.updates == 0 || ospreyrack_reserve(&library.token, library.updates + 1);
}

/* The journal can be cut only where no session is open: after a call that needs none, or that was
 * refused since its session isn't open, or that has closed the last one. A line that this module
 * writes is a call, so where the token takes it for none, the module is wrong. */
static CK_RV make_checked_call(const struct call *call) {
    uint32_t outcome = library.journal.is_kept ? call_by_line(call) : call_by_arguments(call);
    drop_long_lists();
    if (outcome == NO_CALL)
        return CKR_GENERAL_ERROR;
    if (outcome != ANSWERED)
        return CKR_HOST_MEMORY;
    if (library.journal.has_failed)
        return CKR_DEVICE_ERROR;
    CK_RV code = ospreyrack_code(&library.token);
    if (call->session == 0 || call->name == CLOSE_SESSION || code == CKR_SESSION_HANDLE_INVALID)
        cut_journal();
    return code;
}

/* A token that has stopped begins no other journal: its journal is cut only at a call. */
static bool has_stopped(void) {
    return stopped_journal == journals_begun;
}

CK_RV make_call(const struct call *call) {
    CK_RV code = check_call(call);
    if (code != CKR_OK)
        return code;
    if (library.journal.has_failed || has_stopped())
        return CKR_DEVICE_ERROR;
    if (call->lacks_memory || !reserve_room())
        return CKR_HOST_MEMORY;
    return make_checked_call(call);
}

/* There is room for the entry in the token's journal. There is room for its line in the buffer of
 * lines, which had that of the operation's start (a buffer has room for 256 bytes at least), and in
 * the file's text, which had the longer line of a piece before. These two keep their room until
 * C_Finalize. If the cancel found no memory all the same, no later call is answered, so that nobody
 * finishes the message. */
void cancel_operation(CK_ULONG session, CK_FLAGS kind) {
    const struct call cancel = {.name = SESSION_CANCEL, .session = session, .flags = kind};
    if (!library.journal.has_failed && make_checked_call(&cancel) == CKR_HOST_MEMORY)
        stop_answering(journals_begun);
}

/* Where a token is named that was finalized meanwhile, a later one may have stopped already. */
void stop_answering(uint64_t journal) {
    uint64_t stopped = stopped_journal;
    while (stopped < journal
           && !atomic_compare_exchange_weak(&stopped_journal, &stopped, journal))
        ;
}

CK_RV ask_for_session(CK_ULONG session) {
    const struct call call = {.name = GET_SESSION_INFO, .session = session};
    if (library.journal.is_kept || library.updates > 0 || has_stopped())
        return make_call(&call);
    if (ospreyrack_get_session_info(&library.token, caller_number(), session) != ANSWERED)
        return CKR_HOST_MEMORY;
    CK_RV code = ospreyrack_code(&library.token);
    if (code == CKR_SESSION_HANDLE_INVALID)
        cut_journal();
    return code;
}

CK_RV make_call_for_handle(const struct call *call, CK_ULONG *handle) {
    if (handle == NULL)
        return CKR_ARGUMENTS_BAD;
    CK_RV code = make_call(call);
    if (code == CKR_OK)
        *handle = ospreyrack_handle(&library.token);
    return code;
}

CK_RV answer(const struct call *call) {
    CK_RV code = enter();
    return code == CKR_OK ? leave(make_call(call)) : code;
}

CK_RV answer_handle(const struct call *call, CK_ULONG *handle) {
    CK_RV code = enter();
    return code == CKR_OK ? leave(make_call_for_handle(call, handle)) : code;
}
