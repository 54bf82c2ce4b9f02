/*
 * Sessions, logins and PINs (PKCS #11 Base 3.0, Session management functions, and C_InitPIN and
 * C_SetPIN of Slot and token management functions).
 */
#include "module.h"

CK_RV C_OpenSession(CK_SLOT_ID slot, CK_FLAGS flags, CK_VOID_PTR application, CK_NOTIFY notify,
                    CK_SESSION_HANDLE_PTR session) {
    const struct call call = {.name = OPEN_SESSION, .flags = flags};
    (void)application;
    (void)notify;
    CK_RV code = enter_slot(slot);
    return code == CKR_OK ? leave(make_call_for_handle(&call, session)) : code;
}

CK_RV C_CloseSession(CK_SESSION_HANDLE session) {
    const struct call call = {.name = CLOSE_SESSION, .session = session};
    return answer(&call);
}

CK_RV C_CloseAllSessions(CK_SLOT_ID slot) {
    const struct call call = {.name = CLOSE_ALL_SESSIONS};
    CK_RV code = enter_slot(slot);
    return code == CKR_OK ? leave(make_call(&call)) : code;
}

static CK_RV get_session_info(CK_SESSION_HANDLE session, CK_SESSION_INFO *info) {
    struct session reply;
    if (info == NULL)
        return CKR_ARGUMENTS_BAD;
    CK_RV code = ask_for_session(session);
    if (code != CKR_OK)
        return code;
    ospreyrack_session(&library.token, &reply);
    *info = (CK_SESSION_INFO){.slotID = SLOT, .state = reply.state, .flags = reply.flags};
    return CKR_OK;
}

CK_RV C_GetSessionInfo(CK_SESSION_HANDLE session, CK_SESSION_INFO_PTR info) {
    CK_RV code = enter();
    return code == CKR_OK ? leave(get_session_info(session, info)) : code;
}

CK_RV C_SessionCancel(CK_SESSION_HANDLE session, CK_FLAGS flags) {
    const struct call call = {.name = SESSION_CANCEL, .session = session, .flags = flags};
    return answer(&call);
}

CK_RV C_Login(CK_SESSION_HANDLE session, CK_USER_TYPE user, CK_UTF8CHAR_PTR pin, CK_ULONG length) {
    const struct call call = {
        .name = LOGIN,
        .session = session,
        .number = user,
        .pin = pin_of(pin, length),
    };
    return answer(&call);
}

CK_RV C_Logout(CK_SESSION_HANDLE session) {
    const struct call call = {.name = LOGOUT, .session = session};
    return answer(&call);
}

CK_RV C_InitPIN(CK_SESSION_HANDLE session, CK_UTF8CHAR_PTR pin, CK_ULONG length) {
    const struct call call = {
        .name = INIT_PIN,
        .session = session,
        .pin = pin_of(pin, length),
    };
    return answer(&call);
}

CK_RV C_SetPIN(CK_SESSION_HANDLE session, CK_UTF8CHAR_PTR pin, CK_ULONG length,
               CK_UTF8CHAR_PTR new_pin, CK_ULONG new_length) {
    const struct call call = {
        .name = SET_PIN,
        .session = session,
        .pin = pin_of(pin, length),
        .new_pin = pin_of(new_pin, new_length),
    };
    return answer(&call);
}
