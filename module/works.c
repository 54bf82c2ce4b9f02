/*
 * Work on long messages: their bytes are copied and taken in while the lock is free, so that other
 * threads can call the token. Where a journal file is kept, the call's line is written then, too,
 * and the call is that of the line.
 */
#include "module.h"

#include <stdlib.h>

/* From how many bytes on a message is long: the LONG_MESSAGE of crates/ck_journal. The token begins
 * no work on shorter ones. */
enum { SHORTEST_LONG_MESSAGE = 4096 };

struct work {
    struct message_call call;
    bool has_line;      /* a journal file is kept, and the call is that of the line */
    struct buffer line; /* the call's line, for the journal file */
    uint64_t journals;  /* how many journals had begun when all this was so */
    max_align_t room[];
};

/* Whether the message is to be taken in before the call, as a long one is. Where only the length of
 * a digest or a signature is asked for, the message isn't needed. The message is copied before the
 * call is made, so the arguments are checked here, too. */
static bool is_taken_in_before(const struct call *call) {
    bool has_output = call->name == DIGEST || call->name == SIGN;
    return call->bytes.length >= SHORTEST_LONG_MESSAGE && (!has_output || call->room.has_room)
        && check_call(call) == CKR_OK;
}

/* Gives the place the call with a copy of its message, or the call of its line. Answers false
 * without memory. */
static bool give_call(struct work *work, const struct call *call, uint32_t caller) {
    struct buffer *line = &work->line;
    if (!work->has_line)
        return give_message(&work->call, call);
    return write_line(call, caller, line)
        && ospreyrack_message_line(&work->call, line->bytes, line->length);
}

/* Makes the call's work, for a thread of this number. Answers false without memory. */
static bool make_work(struct call *call, bool has_line, uint64_t journals, uint32_t caller) {
    struct work *work = malloc(sizeof *work + ospreyrack_message_size());
    if (work == NULL)
        return false;
    *work = (struct work){.call.at = work->room, .has_line = has_line, .journals = journals};
    ospreyrack_message_make(work->room);
    call->work = work;
    return give_call(work, call, caller);
}

/* Whether the work can be used: while the lock was free, no other thread has initialized the
 * library anew or cut the token's journal. */
static bool is_usable(const struct work *work) {
    return work->journals == journals_begun;
}

CK_RV enter_with_work(struct call *call) {
    CK_RV code = enter();
    if (code != CKR_OK || !is_taken_in_before(call))
        return code;
    bool has_line = library.journal.is_kept;
    uint64_t journals = journals_begun;
    uint32_t caller = caller_number();
    leave(CKR_OK);
    call->lacks_memory = !make_work(call, has_line, journals, caller);
    code = enter();
    if (code != CKR_OK || call->lacks_memory || !is_usable(call->work)
        || !ospreyrack_begin_work(&library.token, &call->work->call))
        return code;
    leave(CKR_OK);
    ospreyrack_take_in(&call->work->call);
    return enter();
}

const struct buffer *line_of_work(const struct call *call) {
    const struct work *work = call->work;
    return work != NULL && is_usable(work) ? &work->line : NULL;
}

bool call_by_work(const struct call *call, uint32_t *outcome) {
    struct work *work = call->work;
    if (work == NULL || !is_usable(work))
        return false;
    *outcome = ospreyrack_call(&library.token, caller_number(), &work->call);
    return true;
}

void drop_work(struct call *call) {
    struct work *work = call->work;
    if (work == NULL)
        return;
    ospreyrack_message_reset(&work->call);
    buffer_free(&work->line);
    free(work);
}
