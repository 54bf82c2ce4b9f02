/*
 * The token as a module that does nothing but call it: a function here makes the token's call, and
 * neither locks, nor looks at what it is given, nor reads the reply. What a function of the module
 * takes longer than the same one here is the module's own share of it. `module.py` compiles this
 * with the token's library. It is for measures of one thread only, and has the functions that these
 * need.
 */
#include "../module/token.h"

#include <pkcs11.h>
#include <stdlib.h>
#include <string.h>

enum { CALLER = 1 };

static struct token token;
static struct message_call message_call;

static CK_RV code_of(uint32_t outcome)
{
    return outcome == ANSWERED ? CKR_OK : CKR_HOST_MEMORY;
}

static CK_RV initialize(CK_VOID_PTR arguments)
{
    (void)arguments;
    token.at = malloc(ospreyrack_size());
    message_call.at = malloc(ospreyrack_message_size());
    if (token.at == NULL || message_call.at == NULL)
        return CKR_HOST_MEMORY;
    ospreyrack_make(token.at);
    ospreyrack_message_make(message_call.at);
    return CKR_OK;
}

static CK_RV finalize(CK_VOID_PTR reserved)
{
    (void)reserved;
    ospreyrack_reset(&token);
    ospreyrack_message_reset(&message_call);
    free(token.at);
    free(message_call.at);
    return CKR_OK;
}

static CK_RV get_slot_list(CK_BBOOL present, CK_SLOT_ID_PTR slots, CK_ULONG_PTR count)
{
    (void)present;
    slots[0] = 0;
    *count = 1;
    return CKR_OK;
}

static CK_RV init_token(CK_SLOT_ID slot, CK_UTF8CHAR_PTR pin, CK_ULONG length,
                        CK_UTF8CHAR_PTR label)
{
    static const char line[] = "1 InitToken 3132333435363738";
    (void)slot, (void)pin, (void)length, (void)label;
    return code_of(ospreyrack_line(&token, (const uint8_t *)line, strlen(line)));
}

static CK_RV open_session(CK_SLOT_ID slot, CK_FLAGS flags, CK_VOID_PTR application,
                          CK_NOTIFY notify, CK_SESSION_HANDLE_PTR session)
{
    (void)slot, (void)application, (void)notify;
    CK_RV code = code_of(ospreyrack_open_session(&token, CALLER, flags));
    *session = ospreyrack_handle(&token);
    return code;
}

static CK_RV close_session(CK_SESSION_HANDLE session)
{
    return code_of(ospreyrack_close_session(&token, CALLER, session));
}

static CK_RV get_session_info(CK_SESSION_HANDLE session, CK_SESSION_INFO_PTR info)
{
    (void)info;
    return code_of(ospreyrack_get_session_info(&token, CALLER, session));
}

static CK_RV get_token_info(CK_SLOT_ID slot, CK_TOKEN_INFO_PTR info)
{
    (void)slot, (void)info;
    return code_of(ospreyrack_get_token_info(&token, CALLER));
}

static CK_RV digest_init(CK_SESSION_HANDLE session, CK_MECHANISM_PTR mechanism)
{
    static const uint8_t none[1];
    CK_MECHANISM_TYPE type = mechanism->mechanism;
    return code_of(ospreyrack_digest_init(&token, CALLER, session, type, none, 0));
}

static CK_RV digest(CK_SESSION_HANDLE session, CK_BYTE_PTR message, CK_ULONG length,
                    CK_BYTE_PTR out, CK_ULONG_PTR room)
{
    (void)out;
    if (!ospreyrack_digest(&message_call, session, message, length, true, *room))
        return CKR_HOST_MEMORY;
    return code_of(ospreyrack_call(&token, CALLER, &message_call));
}

static CK_FUNCTION_LIST functions = {
    .version = {2, 40},
    .C_Initialize = initialize,
    .C_Finalize = finalize,
    .C_GetSlotList = get_slot_list,
    .C_InitToken = init_token,
    .C_OpenSession = open_session,
    .C_CloseSession = close_session,
    .C_GetSessionInfo = get_session_info,
    .C_GetTokenInfo = get_token_info,
    .C_DigestInit = digest_init,
    .C_Digest = digest,
};

CK_RV C_GetFunctionList(CK_FUNCTION_LIST_PTR_PTR list)
{
    *list = &functions;
    return CKR_OK;
}
