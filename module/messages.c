/*
 * What digests, signing and verifying share: how they start and end, and messages and outputs of
 * any length (PKCS #11 Base 3.0, Conventions for functions returning output in a variable-length
 * buffer).
 */
#include "module.h"

CK_RV begin_operation(const struct call *call, CK_FLAGS kind) {
    const struct call cancel = {.name = SESSION_CANCEL, .session = call->session, .flags = kind};
    return answer(call->mechanism != NULL ? call : &cancel);
}

CK_RV answer_message(struct call call) {
    CK_RV code = enter_with_work(&call);
    if (code == CKR_OK)
        code = leave(make_call(&call));
    drop_work(&call);
    return code;
}

/* The token answers bytes only where there is room for all of them. */
static CK_RV make_call_for_output(const struct call *call, CK_BYTE *output, CK_ULONG *length) {
    if (length == NULL)
        return CKR_ARGUMENTS_BAD;
    CK_RV code = make_call(call);
    if (code != CKR_OK && code != CKR_BUFFER_TOO_SMALL)
        return code;
    /* The application's length may be one that no memory has. */
    CK_ULONG room = call->room.length < LONGEST_SIGNATURE ? call->room.length : LONGEST_SIGNATURE;
    if (output != NULL)
        ospreyrack_bytes(&library.token, output, room);
    *length = ospreyrack_length(&library.token);
    return code;
}

CK_RV answer_output(struct call call, CK_BYTE *output, CK_ULONG *length) {
    if (output != NULL && length != NULL)
        call.room = (struct room){true, *length};
    CK_RV code = enter_with_work(&call);
    if (code == CKR_OK)
        code = leave(make_call_for_output(&call, output, length));
    drop_work(&call);
    return code;
}

/* ---- Updates in pieces
 *
 * A piece behind the first that isn't taken leaves a message with a hole. So the operation ends
 * then, before any other thread can make a call. The room that this takes in the token's journal is
 * made before the first piece is taken, and kept: see `cancel_operation`. */

struct update {
    CK_FLAGS kind;     /* of its operation */
    bool has_begun;    /* a piece was taken */
    bool is_last;      /* the next piece is the last one */
    uint64_t journals; /* how many journals had begun at the first piece */
};

/* Makes the call of a piece under the lock. While the update is under way, its token's journal
 * isn't cut: where another journal has begun, the library was finalized meanwhile. */
static CK_RV make_piece(const struct call *piece, struct update *update) {
    if (update->has_begun && update->journals != journals_begun)
        return CKR_CRYPTOKI_NOT_INITIALIZED;
    if (!update->has_begun) {
        update->journals = journals_begun;
        library.updates++;
    }
    CK_RV code = make_call(piece);
    if (code != CKR_OK && update->has_begun)
        cancel_operation(piece->session, update->kind);
    if (code != CKR_OK || update->is_last)
        library.updates--;
    if (code == CKR_OK)
        update->has_begun = true;
    return code;
}

/* Where the lock can't be taken, the operation can't be ended. So that nobody finishes the message,
 * its token answers no later call. Where the library was finalized, that token is gone anyway. */
static CK_RV answer_piece(struct call piece, struct update *update) {
    CK_RV code = enter_with_work(&piece);
    if (code == CKR_OK)
        code = leave(make_piece(&piece, update));
    else if (update->has_begun)
        stop_answering(update->journals);
    drop_work(&piece);
    return code;
}

CK_RV answer_update(struct call call, CK_FLAGS kind) {
    struct update update = {.kind = kind};
    struct bytes left = call.bytes;
    if (left.length <= LONGEST_MESSAGE)
        return answer_message(call);
    while (left.length > 0) {
        call.bytes.at = left.at;
        call.bytes.length = left.length > LONGEST_MESSAGE ? LONGEST_MESSAGE : left.length;
        update.is_last = call.bytes.length == left.length;
        CK_RV code = answer_piece(call, &update);
        if (code != CKR_OK)
            return code;
        left.at += call.bytes.length;
        left.length -= call.bytes.length;
    }
    return CKR_OK;
}
