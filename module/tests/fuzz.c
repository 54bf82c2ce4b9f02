/*
 * Calls of all functions with arguments that are drawn: handles live and dead, templates with NULLs
 * and with lengths of zero and beyond all memory, known and unknown types, rooms of all sizes.
 * Every output stands between guards, and every input in memory of its own length. Called with the
 * module's file, a folder, a seed, how many calls are made, and after how many seconds it ends
 * earlier, though not before LEAST_CALLS calls. Half of the calls are kept in journals in the
 * folder.
 */
#include "support.h"

#include <inttypes.h>
#include <stdio.h>
#include <stdlib.h>
#include <string.h>
#include <time.h>

/* ---- Drawn numbers */

static uint64_t drawn;

/* The next number of splitmix64. */
static uint64_t draw_number(void) {
    drawn += 0x9e3779b97f4a7c15;
    uint64_t number = drawn;
    number = (number ^ (number >> 30)) * 0xbf58476d1ce4e5b9;
    number = (number ^ (number >> 27)) * 0x94d049bb133111eb;
    return number ^ (number >> 31);
}

static uint64_t draw(uint64_t below) {
    return draw_number() % below;
}

static bool one_in(uint64_t count) {
    return draw(count) == 0;
}

static CK_ULONG draw_huge(void) {
    static const CK_ULONG huge[] = {CK_UNAVAILABLE_INFORMATION, CK_UNAVAILABLE_INFORMATION - 1,
                                    (CK_ULONG)1 << 63, (CK_ULONG)1 << 40, (CK_ULONG)1 << 32};
    return huge[draw(sizeof huge / sizeof *huge)];
}

/* ---- Memory that is drawn for one call, and looked at and freed behind it */

enum { MOST_MEMORIES = 64, MOST_BYTES = 3 << 20 };

struct memory {
    uint8_t *at;
    size_t length;
    bool is_output;
};

static struct memory memories[MOST_MEMORIES];
static size_t memory_count;

static void keep_memory(uint8_t *at, size_t length, bool is_output) {
    if (memory_count == MOST_MEMORIES)
        exit(2);
    memories[memory_count++] = (struct memory){at, length, is_output};
}

static uint8_t *new_output(size_t length) {
    uint8_t *at = guarded_new(length);
    keep_memory(at, length, true);
    return at;
}

static uint8_t *new_input(size_t length) {
    uint8_t *at = malloc(length > 0 ? length : 1);
    if (at == NULL)
        exit(2);
    for (size_t i = 0; i < length; i += 8) {
        uint64_t number = draw_number();
        memcpy(at + i, &number, length - i < 8 ? length - i : 8);
    }
    keep_memory(at, length, false);
    return at;
}

static void *new_copy(const void *bytes, size_t length) {
    return memcpy(new_input(length), bytes, length);
}

static void end_memories(const char *name) {
    for (size_t i = 0; i < memory_count; i++) {
        const struct memory *memory = &memories[i];
        if (memory->is_output) {
            check(guarded_is_intact(memory->at, memory->length, memory->length), name);
            guarded_free(memory->at);
        } else {
            free(memory->at);
        }
    }
    memory_count = 0;
}

/* ---- Arguments */

enum { SESSIONS = 12, OBJECTS = 40 };

static CK_SESSION_HANDLE sessions[SESSIONS];
static CK_OBJECT_HANDLE objects[OBJECTS];
static size_t session_count, object_count;

static CK_SESSION_HANDLE draw_session(void) {
    if (one_in(30))
        return one_in(2) ? draw(100) : draw_huge();
    return sessions[draw(SESSIONS)];
}

static CK_OBJECT_HANDLE draw_object(void) {
    if (one_in(20))
        return one_in(2) ? draw(100) : draw_huge();
    return objects[draw(OBJECTS)];
}

static void keep_object(CK_RV code, CK_OBJECT_HANDLE object) {
    if (code == CKR_OK)
        objects[object_count++ % OBJECTS] = object;
}

static const CK_ATTRIBUTE_TYPE types[] = {
    CKA_CLASS, CKA_TOKEN, CKA_PRIVATE, CKA_LABEL, CKA_APPLICATION, CKA_VALUE, CKA_OBJECT_ID,
    CKA_KEY_TYPE, CKA_ID, CKA_SENSITIVE, CKA_ENCRYPT, CKA_SIGN, CKA_VERIFY, CKA_DERIVE,
    CKA_VALUE_LEN, CKA_EXTRACTABLE, CKA_LOCAL, CKA_NEVER_EXTRACTABLE, CKA_KEY_GEN_MECHANISM,
    CKA_MODIFIABLE, CKA_COPYABLE, CKA_DESTROYABLE, 0x80000001, CKA_MODULUS,
};

static CK_ATTRIBUTE_TYPE draw_type(void) {
    return one_in(40) ? draw_number() : types[draw(sizeof types / sizeof *types)];
}

static CK_ATTRIBUTE number_attribute(CK_ATTRIBUTE_TYPE type, CK_ULONG number) {
    return (CK_ATTRIBUTE){type, new_copy(&number, sizeof number), sizeof number};
}

static CK_ATTRIBUTE flag_attribute(CK_ATTRIBUTE_TYPE type, CK_BBOOL flag) {
    return (CK_ATTRIBUTE){type, new_copy(&flag, sizeof flag), sizeof flag};
}

/* A value of the form that most attributes of this type have, or any bytes, or none, or NULL. */
static CK_ATTRIBUTE draw_attribute(void) {
    CK_ATTRIBUTE_TYPE type = draw_type();
    size_t length = draw(40);
    switch (draw(16)) {
    case 0:
        return (CK_ATTRIBUTE){type, NULL, one_in(2) ? 0 : draw(100)};
    case 1:
        return (CK_ATTRIBUTE){type, new_input(length), one_in(4) ? draw_huge() : length};
    case 2:
    case 3:
        return number_attribute(type, draw(20));
    case 4:
    case 5:
    case 6:
        return (CK_ATTRIBUTE){type, new_input(length), length};
    default:
        return flag_attribute(type, (CK_BBOOL)draw(2));
    }
}

enum { MOST_ATTRIBUTES = 8 };

struct template {
    CK_ATTRIBUTE *attributes;
    CK_ULONG count;
};

/* The attributes that are given, and then drawn ones; seldom NULL. */
static struct template draw_template(const CK_ATTRIBUTE *given, size_t given_count, size_t most) {
    CK_ATTRIBUTE attributes[MOST_ATTRIBUTES];
    size_t count = given_count + draw(most + 1 - given_count);
    if (one_in(100))
        return (struct template){NULL, one_in(2) ? 0 : draw_huge()};
    for (size_t i = 0; i < count; i++)
        attributes[i] = i < given_count ? given[i] : draw_attribute();
    return (struct template){new_copy(attributes, count * sizeof *attributes), count};
}

static CK_MECHANISM *draw_mechanism(const CK_MECHANISM_TYPE *known, size_t count) {
    CK_MECHANISM mechanism = mechanism_of(one_in(20) ? draw(0x400) : known[draw(count)]);
    CK_ULONG general = draw(70), length = draw(20);
    if (one_in(100))
        return NULL;
    if ((mechanism.mechanism & 15) == 2 || (mechanism.mechanism & 15) == 7 || one_in(20)) {
        mechanism.pParameter = new_copy(&general, sizeof general);
        mechanism.ulParameterLen = sizeof general;
    }
    if (one_in(20)) {
        mechanism.pParameter = one_in(2) ? NULL : new_input(length);
        mechanism.ulParameterLen = length;
    }
    return new_copy(&mechanism, sizeof mechanism);
}

static const CK_MECHANISM_TYPE digests[] = {CKM_SHA224, CKM_SHA256, CKM_SHA384, CKM_SHA512};
static const CK_MECHANISM_TYPE macs[] = {
    CKM_SHA224_HMAC, CKM_SHA256_HMAC, CKM_SHA384_HMAC, CKM_SHA512_HMAC, CKM_SHA224_HMAC_GENERAL,
    CKM_SHA256_HMAC_GENERAL, CKM_SHA384_HMAC_GENERAL, CKM_SHA512_HMAC_GENERAL,
};
static const CK_MECHANISM_TYPE generations[] = {CKM_GENERIC_SECRET_KEY_GEN};

struct message {
    CK_BYTE *bytes;
    CK_ULONG length;
};

/* Seldom so long that it is taken in while the lock is free, above 2^20 bytes, or NULL. */
static struct message draw_message(void) {
    size_t length = one_in(2000) ? (1 << 20) - 2 + draw(5) : draw(300);
    if (one_in(50))
        length = 4000 + draw(4000);
    if (one_in(5000))
        length = draw(MOST_BYTES);
    if (one_in(50))
        return (struct message){NULL, one_in(2) ? 0 : draw_huge()};
    return (struct message){new_input(length), length};
}

/* One of the two PINs, or any bytes. */
static struct message draw_pin(void) {
    size_t length = draw(100);
    if (one_in(10))
        return (struct message){one_in(4) ? NULL : new_input(length), length};
    return (struct message){new_copy(one_in(2) ? so_pin : user_pin, 4), 4};
}

struct output {
    CK_BYTE *bytes;
    CK_ULONG *length;
};

/* Room for 0 to 70 bytes; or none; or for 128, of which more is said. */
static struct output draw_output(void) {
    CK_ULONG length = draw(71);
    struct output output = {NULL, NULL};
    if (one_in(20))
        output.bytes = new_output(length = 128);
    else if (!one_in(8))
        output.bytes = new_output(length);
    if (length == 128 || output.bytes == NULL)
        length = one_in(2) ? length : draw_huge();
    if (!one_in(50))
        output.length = new_copy(&length, sizeof length);
    return output;
}

/* ---- Calls. Each answers its code. */

static CK_RV open_session(void) {
    CK_SESSION_HANDLE session = 0;
    CK_FLAGS flags = one_in(20) ? draw(16) : CKF_SERIAL_SESSION | (one_in(6) ? 0 : CKF_RW_SESSION);
    CK_RV code = p11->C_OpenSession(one_in(30), flags, NULL, NULL, one_in(50) ? NULL : &session);
    if (code == CKR_OK)
        sessions[session_count++ % SESSIONS] = session;
    return code;
}

static CK_RV close_session(void) {
    return p11->C_CloseSession(draw_session());
}

static CK_RV close_all_sessions(void) {
    return p11->C_CloseAllSessions(one_in(4));
}

static CK_RV init_token(void) {
    struct message pin = draw_pin();
    return p11->C_InitToken(one_in(30), pin.bytes, pin.length,
                            one_in(20) ? NULL : new_input(sizeof token_label));
}

static CK_RV init_pin(void) {
    struct message pin = draw_pin();
    return p11->C_InitPIN(draw_session(), pin.bytes, pin.length);
}

static CK_RV set_pin(void) {
    struct message pin = draw_pin(), new_pin = draw_pin();
    return p11->C_SetPIN(draw_session(), pin.bytes, pin.length, new_pin.bytes, new_pin.length);
}

static CK_RV log_in_either(void) {
    CK_USER_TYPE user = one_in(20) ? draw_huge() : draw(2);
    CK_UTF8CHAR *right = user == CKU_SO ? so_pin : user_pin;
    struct message pin = draw_pin();
    if (!one_in(8))
        pin = (struct message){new_copy(right, 4), 4};
    return p11->C_Login(draw_session(), user, pin.bytes, pin.length);
}

static CK_RV log_out(void) {
    return p11->C_Logout(draw_session());
}

static CK_RV get_session_info(void) {
    return p11->C_GetSessionInfo(draw_session(),
                                 one_in(20) ? NULL : (void *)new_output(sizeof(CK_SESSION_INFO)));
}

static CK_RV ask_of_slot(void) {
    CK_SLOT_ID slot = one_in(10);
    CK_ULONG count = draw(20);
    CK_ULONG *length = one_in(10) ? NULL : new_copy(&count, sizeof count);
    void *numbers = one_in(4) ? NULL : new_output(count * sizeof count);
    switch (draw(6)) {
    case 0:
        return p11->C_GetSlotInfo(slot, (void *)new_output(sizeof(CK_SLOT_INFO)));
    case 1:
        return p11->C_GetTokenInfo(slot, (void *)new_output(sizeof(CK_TOKEN_INFO)));
    case 2:
        return p11->C_GetSlotList((CK_BBOOL)draw(3), numbers, length);
    case 3:
        return p11->C_GetMechanismList(slot, numbers, length);
    case 4:
        return p11->C_GetMechanismInfo(slot, macs[draw(8)],
                                       (void *)new_output(sizeof(CK_MECHANISM_INFO)));
    default:
        return p11->C_WaitForSlotEvent(draw(2), length, NULL);
    }
}

static CK_RV session_cancel(void) {
    static const CK_FLAGS kinds[] = {0, CKF_DIGEST, CKF_SIGN, CKF_VERIFY, CKF_ENCRYPT};
    return p11->C_SessionCancel(draw_session(), kinds[draw(5)] | kinds[draw(5)]);
}

static CK_RV create_data_object(void) {
    CK_ATTRIBUTE given[] = {
        number_attribute(CKA_CLASS, CKO_DATA),
        flag_attribute(CKA_PRIVATE, (CK_BBOOL)one_in(4)),
    };
    struct template template = draw_template(given, 2, one_in(2) ? 2 : 5);
    CK_OBJECT_HANDLE object = 0;
    CK_RV code = p11->C_CreateObject(draw_session(), template.attributes, template.count,
                                     one_in(50) ? NULL : &object);
    keep_object(code, object);
    return code;
}

static CK_RV create_secret_key(void) {
    size_t length = one_in(30) ? draw(5000) : 1 + draw(100);
    CK_ATTRIBUTE given[] = {
        number_attribute(CKA_CLASS, CKO_SECRET_KEY),
        number_attribute(CKA_KEY_TYPE, CKK_GENERIC_SECRET),
        flag_attribute(CKA_PRIVATE, (CK_BBOOL)one_in(4)),
        {CKA_VALUE, new_input(length), length},
    };
    struct template template = draw_template(given, 4, one_in(2) ? 4 : 6);
    CK_OBJECT_HANDLE key = 0;
    CK_RV code = p11->C_CreateObject(draw_session(), template.attributes, template.count, &key);
    keep_object(code, key);
    return code;
}

static CK_RV create_anything(void) {
    CK_ATTRIBUTE class = number_attribute(CKA_CLASS, one_in(2) ? CKO_DATA : CKO_SECRET_KEY);
    struct template template = draw_template(&class, one_in(4) ? 0 : 1, MOST_ATTRIBUTES - 1);
    CK_OBJECT_HANDLE object = 0;
    CK_RV code = p11->C_CreateObject(draw_session(), template.attributes, template.count, &object);
    keep_object(code, object);
    return code;
}

static CK_RV generate_key(void) {
    CK_ATTRIBUTE given[] = {
        number_attribute(CKA_VALUE_LEN, one_in(10) ? draw_number() >> draw(64) : draw(100)),
        flag_attribute(CKA_PRIVATE, (CK_BBOOL)one_in(4)),
    };
    struct template template = draw_template(given, one_in(20) ? 0 : 2, one_in(2) ? 2 : 5);
    CK_OBJECT_HANDLE key = 0;
    CK_RV code = p11->C_GenerateKey(draw_session(), draw_mechanism(generations, 1),
                                    template.attributes, template.count, &key);
    keep_object(code, key);
    return code;
}

static CK_RV copy_object(void) {
    struct template template = draw_template(NULL, 0, 2);
    CK_OBJECT_HANDLE copy = 0;
    CK_RV code = p11->C_CopyObject(draw_session(), draw_object(), template.attributes,
                                   template.count, &copy);
    keep_object(code, copy);
    return code;
}

static CK_RV destroy_object(void) {
    return p11->C_DestroyObject(draw_session(), draw_object());
}

static CK_RV get_object_size(void) {
    return p11->C_GetObjectSize(draw_session(), draw_object(),
                                one_in(20) ? NULL : (void *)new_output(sizeof(CK_ULONG)));
}

static CK_ATTRIBUTE draw_query(void) {
    CK_ULONG room = one_in(2) ? draw(20) : draw(200);
    if (one_in(4))
        return (CK_ATTRIBUTE){draw_type(), NULL, one_in(2) ? draw_huge() : room};
    if (one_in(20))
        return (CK_ATTRIBUTE){draw_type(), new_output(6000), draw_huge()};
    return (CK_ATTRIBUTE){draw_type(), new_output(room), room};
}

static CK_RV get_attribute_value(void) {
    CK_ATTRIBUTE queries[10];
    CK_ULONG count = draw(11);
    for (CK_ULONG i = 0; i < count; i++)
        queries[i] = draw_query();
    if (one_in(50))
        return p11->C_GetAttributeValue(draw_session(), draw_object(), NULL, count);
    return p11->C_GetAttributeValue(draw_session(), draw_object(),
                                    new_copy(queries, count * sizeof *queries), count);
}

static CK_RV set_attribute_value(void) {
    struct template template = draw_template(NULL, 0, 2);
    return p11->C_SetAttributeValue(draw_session(), draw_object(), template.attributes,
                                    template.count);
}

static CK_RV set_key_state(void) {
    return vendor_functions()->C_SetKeyState(draw_session(), draw_object(),
                                             one_in(20) ? draw_huge() : one_in(2) ? 1 : draw(6));
}

static CK_RV find_objects_init(void) {
    struct template template = draw_template(NULL, 0, 1);
    return p11->C_FindObjectsInit(draw_session(), template.attributes, template.count);
}

static CK_RV find_objects(void) {
    CK_ULONG most = draw(10);
    CK_OBJECT_HANDLE *handles = (void *)new_output(most * sizeof *handles);
    CK_ULONG *count = one_in(30) ? NULL : (void *)new_output(sizeof *count);
    return p11->C_FindObjects(draw_session(), one_in(30) ? NULL : handles, most, count);
}

static CK_RV find_objects_final(void) {
    return p11->C_FindObjectsFinal(draw_session());
}

static CK_RV digest_init(void) {
    return p11->C_DigestInit(draw_session(), draw_mechanism(digests, 4));
}

static CK_RV digest(void) {
    struct message message = draw_message();
    struct output output = draw_output();
    return p11->C_Digest(draw_session(), message.bytes, message.length, output.bytes,
                         output.length);
}

static CK_RV digest_update(void) {
    struct message message = draw_message();
    return p11->C_DigestUpdate(draw_session(), message.bytes, message.length);
}

static CK_RV digest_final(void) {
    struct output output = draw_output();
    return p11->C_DigestFinal(draw_session(), output.bytes, output.length);
}

static CK_RV sign_init(void) {
    return p11->C_SignInit(draw_session(), draw_mechanism(macs, 8), draw_object());
}

static CK_RV sign(void) {
    struct message message = draw_message();
    struct output output = draw_output();
    return p11->C_Sign(draw_session(), message.bytes, message.length, output.bytes, output.length);
}

static CK_RV sign_update(void) {
    struct message message = draw_message();
    return p11->C_SignUpdate(draw_session(), message.bytes, message.length);
}

static CK_RV sign_final(void) {
    struct output output = draw_output();
    return p11->C_SignFinal(draw_session(), output.bytes, output.length);
}

static CK_RV verify_init(void) {
    return p11->C_VerifyInit(draw_session(), draw_mechanism(macs, 8), draw_object());
}

static CK_RV verify(void) {
    struct message message = draw_message(), signature = draw_message();
    return p11->C_Verify(draw_session(), message.bytes, message.length, signature.bytes,
                         signature.length);
}

/* What is signed is verified, at once or in pieces, in a session that is drawn once. */
static CK_RV sign_and_verify(void) {
    CK_SESSION_HANDLE session = draw_session();
    CK_OBJECT_HANDLE key = draw_object();
    CK_MECHANISM mechanism = mechanism_of(macs[draw(4)]);
    CK_ULONG length = 64;
    CK_BYTE *signature = new_output(length);
    struct message message = draw_message();
    CK_RV code = p11->C_SignInit(session, &mechanism, key);
    if (code != CKR_OK)
        return code;
    code = p11->C_Sign(session, message.bytes, message.length, signature, &length);
    if (code != CKR_OK || p11->C_VerifyInit(session, &mechanism, key) != CKR_OK)
        return code;
    bool is_at_once = one_in(2);
    code = is_at_once ? p11->C_Verify(session, message.bytes, message.length, signature, length)
                      : p11->C_VerifyUpdate(session, message.bytes, message.length);
    if (code == CKR_OK && !is_at_once)
        code = p11->C_VerifyFinal(session, signature, length);
    check_code(code, CKR_OK, "what was signed is verified");
    return code;
}

static CK_RV verify_update(void) {
    struct message message = draw_message();
    return p11->C_VerifyUpdate(draw_session(), message.bytes, message.length);
}

static CK_RV verify_final(void) {
    struct message signature = draw_message();
    return p11->C_VerifyFinal(draw_session(), signature.bytes, signature.length);
}

static CK_RV random_bytes(void) {
    size_t length = draw(200);
    if (one_in(10))
        return p11->C_SeedRandom(draw_session(), new_input(length), length);
    return p11->C_GenerateRandom(draw_session(), one_in(20) ? NULL : new_output(length), length);
}

struct step {
    const char *name;
    CK_RV (*make)(void);
    unsigned weight;
    size_t answered_ok;
};

static struct step steps[] = {
    {"C_OpenSession", open_session, 6, 0},
    {"C_CloseSession", close_session, 2, 0},
    {"C_CloseAllSessions", close_all_sessions, 1, 0},
    {"C_InitToken", init_token, 1, 0},
    {"C_InitPIN", init_pin, 2, 0},
    {"C_SetPIN", set_pin, 1, 0},
    {"C_Login", log_in_either, 4, 0},
    {"C_Logout", log_out, 1, 0},
    {"C_GetSessionInfo", get_session_info, 2, 0},
    {"functions of slots", ask_of_slot, 4, 0},
    {"C_SessionCancel", session_cancel, 2, 0},
    {"C_CreateObject of data", create_data_object, 8, 0},
    {"C_CreateObject of a key", create_secret_key, 12, 0},
    {"C_CreateObject", create_anything, 3, 0},
    {"C_GenerateKey", generate_key, 8, 0},
    {"C_CopyObject", copy_object, 6, 0},
    {"C_DestroyObject", destroy_object, 2, 0},
    {"C_GetObjectSize", get_object_size, 2, 0},
    {"C_GetAttributeValue", get_attribute_value, 10, 0},
    {"C_SetAttributeValue", set_attribute_value, 5, 0},
    {"C_SetKeyState", set_key_state, 2, 0},
    {"C_FindObjectsInit", find_objects_init, 5, 0},
    {"C_FindObjects", find_objects, 5, 0},
    {"C_FindObjectsFinal", find_objects_final, 4, 0},
    {"C_DigestInit", digest_init, 8, 0},
    {"C_Digest", digest, 4, 0},
    {"C_DigestUpdate", digest_update, 5, 0},
    {"C_DigestFinal", digest_final, 4, 0},
    {"C_SignInit", sign_init, 12, 0},
    {"C_Sign", sign, 6, 0},
    {"C_SignUpdate", sign_update, 6, 0},
    {"C_SignFinal", sign_final, 5, 0},
    {"C_VerifyInit", verify_init, 8, 0},
    {"C_Verify", verify, 3, 0},
    {"C_Sign and C_Verify", sign_and_verify, 8, 0},
    {"C_VerifyUpdate", verify_update, 4, 0},
    {"C_VerifyFinal", verify_final, 3, 0},
    {"C_GenerateRandom", random_bytes, 3, 0},
};

enum { STEPS = sizeof steps / sizeof *steps, CALLS_OF_A_TOKEN = 4000 };

static struct step *draw_step(void) {
    uint64_t total = 0;
    for (size_t i = 0; i < STEPS; i++)
        total += steps[i].weight;
    uint64_t left = draw(total);
    size_t i = 0;
    while (left >= steps[i].weight)
        left -= steps[i++].weight;
    return &steps[i];
}

/* All codes that the token has, and those of the C interface. */
static const CK_RV known_codes[] = {
    CKR_OK, CKR_SLOT_ID_INVALID, CKR_ARGUMENTS_BAD, CKR_NO_EVENT, CKR_ATTRIBUTE_READ_ONLY,
    CKR_ATTRIBUTE_SENSITIVE, CKR_ATTRIBUTE_TYPE_INVALID, CKR_ATTRIBUTE_VALUE_INVALID,
    CKR_ACTION_PROHIBITED, CKR_DATA_LEN_RANGE, CKR_KEY_HANDLE_INVALID, CKR_KEY_SIZE_RANGE,
    CKR_KEY_FUNCTION_NOT_PERMITTED, CKR_MECHANISM_INVALID, CKR_MECHANISM_PARAM_INVALID,
    CKR_OBJECT_HANDLE_INVALID, CKR_OPERATION_ACTIVE, CKR_OPERATION_NOT_INITIALIZED,
    CKR_PIN_INCORRECT, CKR_PIN_LEN_RANGE, CKR_PIN_LOCKED, CKR_SESSION_COUNT,
    CKR_SESSION_HANDLE_INVALID, CKR_SESSION_PARALLEL_NOT_SUPPORTED, CKR_SESSION_READ_ONLY,
    CKR_SESSION_EXISTS, CKR_SESSION_READ_ONLY_EXISTS, CKR_SESSION_READ_WRITE_SO_EXISTS,
    CKR_SIGNATURE_INVALID, CKR_SIGNATURE_LEN_RANGE, CKR_TEMPLATE_INCOMPLETE,
    CKR_TEMPLATE_INCONSISTENT, CKR_TOKEN_NOT_RECOGNIZED, CKR_USER_ALREADY_LOGGED_IN,
    CKR_USER_NOT_LOGGED_IN, CKR_USER_PIN_NOT_INITIALIZED, CKR_USER_TYPE_INVALID,
    CKR_USER_ANOTHER_ALREADY_LOGGED_IN, CKR_BUFFER_TOO_SMALL, CKR_FUNCTION_NOT_SUPPORTED,
    CKR_RANDOM_SEED_NOT_SUPPORTED,
};

enum { CODES = sizeof known_codes / sizeof *known_codes };

static size_t seen[CODES];

static void see_code(CK_RV code, const char *name) {
    for (size_t i = 0; i < CODES; i++) {
        if (known_codes[i] == code) {
            seen[i]++;
            return;
        }
    }
    check_code(code, CKR_OK, name);
}

static void make_step(void) {
    struct step *step = draw_step();
    CK_RV code = step->make();
    step->answered_ok += code == CKR_OK;
    see_code(code, step->name);
    end_memories(step->name);
}

/* ---- Tokens, one after the other; every second one keeps a journal */

static const char *folder;
static uint64_t calls, most_calls;
static time_t end;

/* At least this many are made, however slow the machine is: fewer may not reach each function. */
enum { LEAST_CALLS = 50000 };

static bool goes_on(void) {
    return calls < most_calls && (calls < LEAST_CALLS || time(NULL) < end);
}

static void use_token(uint64_t number) {
    keep_journals(number % 2 == 1 ? folder : NULL);
    CK_SESSION_HANDLE session = begin_token();
    for (size_t i = 0; i < SESSIONS; i++)
        sessions[i] = session;
    for (int i = 0; i < CALLS_OF_A_TOKEN && goes_on(); i++) {
        make_step();
        calls++;
    }
    end_token();
}

/* Each step succeeds at times, except those that would have to draw a signature. */
static void check_reach(void) {
    size_t reached = 0;
    for (size_t i = 0; i < STEPS; i++) {
        if (steps[i].make != verify && steps[i].make != verify_final)
            check(steps[i].answered_ok > 0, steps[i].name);
    }
    for (size_t i = 0; i < CODES; i++)
        reached += seen[i] > 0;
    printf("fuzz: %" PRIu64 " calls were answered %zu of %d codes\n", calls, reached, CODES);
    check(reached > CODES * 3 / 4, "most codes are answered");
}

static void test_drawn_calls(void) {
    for (uint64_t number = 0; goes_on(); number++)
        use_token(number);
    check_reach();
}

static const struct test tests[] = {
    {"drawn calls: guards, codes and signatures; each function succeeds at times",
     test_drawn_calls},
};

int main(int count, char **arguments) {
    if (count != 6) {
        fprintf(stderr, "fuzz MODULE FOLDER SEED CALLS SECONDS\n");
        return 2;
    }
    folder = arguments[2];
    drawn = strtoull(arguments[3], NULL, 10);
    most_calls = strtoull(arguments[4], NULL, 10);
    end = time(NULL) + atol(arguments[5]);
    load_module(arguments[1]);
    return run_tests("fuzz", tests, 1);
}
