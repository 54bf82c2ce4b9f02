/*
 * Calls as lines of the script language.
 */
#include "module.h"

#include <inttypes.h>
#include <stdio.h>
#include <string.h>

/* The arguments of calls, by the members of `struct call` that they stand in. */
enum argument {
    NO_ARGUMENT,
    SESSION,
    OBJECT,
    NUMBER,
    FLAGS,
    PIN,
    NEW_PIN,
    BYTES,
    SIGNATURE,
    ROOM,
    MECHANISM,
    TEMPLATE,
    QUERIES,
};

enum { MOST_ARGUMENTS = 4 };

struct form {
    const char *name;
    enum argument arguments[MOST_ARGUMENTS];
};

static const struct form forms[] = {
    [INIT_TOKEN] = {"InitToken", {PIN}},
    [INIT_PIN] = {"InitPIN", {SESSION, PIN}},
    [SET_PIN] = {"SetPIN", {SESSION, PIN, NEW_PIN}},
    [OPEN_SESSION] = {"OpenSession", {FLAGS}},
    [CLOSE_SESSION] = {"CloseSession", {SESSION}},
    [CLOSE_ALL_SESSIONS] = {"CloseAllSessions", {NO_ARGUMENT}},
    [LOGIN] = {"Login", {SESSION, NUMBER, PIN}},
    [LOGOUT] = {"Logout", {SESSION}},
    [GET_SESSION_INFO] = {"GetSessionInfo", {SESSION}},
    [GET_TOKEN_INFO] = {"GetTokenInfo", {NO_ARGUMENT}},
    [GET_MECHANISM_LIST] = {"GetMechanismList", {NO_ARGUMENT}},
    [SESSION_CANCEL] = {"SessionCancel", {SESSION, FLAGS}},
    [CREATE_OBJECT] = {"CreateObject", {SESSION, TEMPLATE}},
    [GENERATE_KEY] = {"GenerateKey", {SESSION, MECHANISM, TEMPLATE, BYTES}},
    [COPY_OBJECT] = {"CopyObject", {SESSION, OBJECT, TEMPLATE}},
    [GET_ATTRIBUTE_VALUE] = {"GetAttributeValue", {SESSION, OBJECT, QUERIES}},
    [SET_ATTRIBUTE_VALUE] = {"SetAttributeValue", {SESSION, OBJECT, TEMPLATE}},
    [SET_KEY_STATE] = {"SetKeyState", {SESSION, OBJECT, NUMBER}},
    [DESTROY_OBJECT] = {"DestroyObject", {SESSION, OBJECT}},
    [FIND_OBJECTS_INIT] = {"FindObjectsInit", {SESSION, TEMPLATE}},
    [FIND_OBJECTS] = {"FindObjects", {SESSION, NUMBER}},
    [FIND_OBJECTS_FINAL] = {"FindObjectsFinal", {SESSION}},
    [DIGEST_INIT] = {"DigestInit", {SESSION, MECHANISM}},
    [DIGEST] = {"Digest", {SESSION, BYTES, ROOM}},
    [DIGEST_UPDATE] = {"DigestUpdate", {SESSION, BYTES}},
    [DIGEST_FINAL] = {"DigestFinal", {SESSION, ROOM}},
    [SIGN_INIT] = {"SignInit", {SESSION, MECHANISM, OBJECT}},
    [SIGN] = {"Sign", {SESSION, BYTES, ROOM}},
    [SIGN_UPDATE] = {"SignUpdate", {SESSION, BYTES}},
    [SIGN_FINAL] = {"SignFinal", {SESSION, ROOM}},
    [VERIFY_INIT] = {"VerifyInit", {SESSION, MECHANISM, OBJECT}},
    [VERIFY] = {"Verify", {SESSION, BYTES, SIGNATURE}},
    [VERIFY_UPDATE] = {"VerifyUpdate", {SESSION, BYTES}},
    [VERIFY_FINAL] = {"VerifyFinal", {SESSION, SIGNATURE}},
};

static bool add_text(struct buffer *line, const char *text) {
    size_t length = strlen(text);
    return length <= LONGEST_LINE - line->length && buffer_add(line, text, length);
}

static bool add_decimal(struct buffer *line, uint64_t number) {
    char text[24];
    snprintf(text, sizeof text, "%" PRIu64, number);
    return add_text(line, text);
}

static bool add_flags(struct buffer *line, uint64_t flags) {
    char text[24];
    snprintf(text, sizeof text, "%" PRIx64, flags);
    return add_text(line, text);
}

static bool add_bytes(struct buffer *line, struct bytes bytes) {
    if (bytes.length == 0)
        return add_text(line, "-");
    return bytes.length <= (LONGEST_LINE - line->length) / 2
        && buffer_add_hexadecimal(line, bytes.at, bytes.length);
}

static bool add_room(struct buffer *line, struct room room) {
    return room.has_room ? add_decimal(line, room.length) : add_text(line, "?");
}

static bool add_mechanism(struct buffer *line, const CK_MECHANISM *mechanism) {
    struct bytes parameter = parameter_of(mechanism);
    if (!add_flags(line, mechanism->mechanism))
        return false;
    return parameter.length == 0 || (add_text(line, ":") && add_bytes(line, parameter));
}

static bool add_item(struct buffer *line, const CK_ATTRIBUTE *attribute) {
    struct bytes value = {attribute->pValue, attribute->ulValueLen};
    return add_flags(line, attribute->type) && add_text(line, "=") && add_bytes(line, value);
}

static bool add_query(struct buffer *line, const CK_ATTRIBUTE *attribute) {
    struct room room = {attribute->pValue != NULL, attribute->ulValueLen};
    return add_flags(line, attribute->type) && add_text(line, ":") && add_room(line, room);
}

/* Adds the attributes, each by the function for one, with commas between them. */
static bool add_attributes(struct buffer *line, const struct call *call,
                           bool (*add_one)(struct buffer *line, const CK_ATTRIBUTE *attribute)) {
    if (call->count == 0)
        return add_text(line, "-");
    bool is_added = add_one(line, &call->attributes[0]);
    for (CK_ULONG i = 1; is_added && i < call->count; i++)
        is_added = add_text(line, ",") && add_one(line, &call->attributes[i]);
    return is_added;
}

static bool add_argument(struct buffer *line, const struct call *call, enum argument argument) {
    switch (argument) {
    case SESSION:
        return add_decimal(line, call->session);
    case OBJECT:
        return add_decimal(line, call->object);
    case NUMBER:
        return add_decimal(line, call->number);
    case FLAGS:
        return add_flags(line, call->flags);
    case PIN:
        return add_bytes(line, call->pin);
    case NEW_PIN:
        return add_bytes(line, call->new_pin);
    case BYTES:
        return add_bytes(line, call->bytes);
    case SIGNATURE:
        return add_bytes(line, call->signature);
    case ROOM:
        return add_room(line, call->room);
    case MECHANISM:
        return add_mechanism(line, call->mechanism);
    case TEMPLATE:
        return add_attributes(line, call, add_item);
    case QUERIES:
        return add_attributes(line, call, add_query);
    case NO_ARGUMENT:
        break;
    }
    return true;
}

bool write_line(const struct call *call, uint32_t caller, struct buffer *line) {
    const struct form *form = &forms[call->name];
    line->length = 0;
    bool is_added = add_decimal(line, caller) && add_text(line, " ") && add_text(line, form->name);
    for (int i = 0; is_added && i < MOST_ARGUMENTS && form->arguments[i] != NO_ARGUMENT; i++)
        is_added = add_text(line, " ") && add_argument(line, call, form->arguments[i]);
    return is_added;
}
