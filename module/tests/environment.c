/*
 * Threads that are cancelled, forks, random bytes, environment variables, signals and memory.
 */
#include "conventions.h"

#include <errno.h>
#include <fcntl.h>
#include <pthread.h>
#include <sanitizer/lsan_interface.h>
#include <signal.h>
#include <stdio.h>
#include <stdlib.h>
#include <string.h>
#include <sys/stat.h>
#include <sys/syscall.h>
#include <sys/wait.h>
#include <time.h>
#include <unistd.h>

/* ---- A thread that is cancelled */

/* The thread could be cancelled after a call, as it could before. */
static void forbid_cancel_again(void) {
    int before = PTHREAD_CANCEL_DISABLE;
    pthread_setcancelstate(PTHREAD_CANCEL_DISABLE, &before);
    CHECK(before == PTHREAD_CANCEL_ENABLE);
}

/* The thread is to end where it next can. It can't under the lock, which would stay taken. */
static void *generate_and_end(void *ignored) {
    CK_MECHANISM generation = mechanism_of(CKM_GENERIC_SECRET_KEY_GEN);
    CK_ULONG key_length = 16;
    CK_OBJECT_HANDLE key = 0;
    CK_ATTRIBUTE template = {CKA_VALUE_LEN, &key_length, sizeof key_length};
    pthread_cancel(pthread_self());
    EXPECT(CKR_OK, p11->C_GenerateKey(current_session, &generation, &template, 1, &key));
    CHECK(key != 0);
    forbid_cancel_again();
    return ignored;
}

/* The thread must end by itself. If it ended in the call, the next one could wait without end. */
static void run_thread(void *(*run)(void *)) {
    pthread_t thread;
    void *ended = NULL;
    CHECK(pthread_create(&thread, NULL, run, NULL) == 0);
    CHECK(pthread_join(thread, &ended) == 0 && ended == NULL);
    if (ended != NULL)
        exit(2);
}

static void test_cancelled_thread(void) {
    CK_TOKEN_INFO info;
    current_session = begin_token();
    run_thread(generate_and_end);
    EXPECT(CKR_OK, p11->C_GetTokenInfo(0, &info));
    end_token();
}

static void *initialize_and_end(void *ignored) {
    pthread_cancel(pthread_self());
    EXPECT(CKR_OK, p11->C_Initialize(NULL));
    forbid_cancel_again();
    return ignored;
}

static void *finalize_and_end(void *ignored) {
    pthread_cancel(pthread_self());
    EXPECT(CKR_OK, p11->C_Finalize(NULL));
    forbid_cancel_again();
    return ignored;
}

/* A thread that opens or closes a file can be cancelled there. */
static void test_cancelled_beginning_and_end(void) {
    CK_TOKEN_INFO info;
    setenv("OSPREYRACK_TOKEN", path_of("cancelled.cases"), 1);
    run_thread(initialize_and_end);
    EXPECT(CKR_OK, p11->C_GetTokenInfo(0, &info));
    run_thread(finalize_and_end);
    EXPECT(CKR_CRYPTOKI_NOT_INITIALIZED, p11->C_GetTokenInfo(0, &info));
    EXPECT(CKR_OK, p11->C_Initialize(NULL));
    end_token();
    unsetenv("OSPREYRACK_TOKEN");
}

static void test_forbidden_cancel(void) {
    CK_MECHANISM generation = mechanism_of(CKM_GENERIC_SECRET_KEY_GEN);
    CK_ULONG key_length = 16;
    CK_OBJECT_HANDLE key = 0;
    CK_ATTRIBUTE template = {CKA_VALUE_LEN, &key_length, sizeof key_length};
    int before = PTHREAD_CANCEL_ENABLE;
    pthread_setcancelstate(PTHREAD_CANCEL_DISABLE, NULL);
    CK_SESSION_HANDLE session = begin_token();
    EXPECT(CKR_OK, p11->C_GenerateKey(session, &generation, &template, 1, &key));
    end_token();
    pthread_setcancelstate(PTHREAD_CANCEL_ENABLE, &before);
    CHECK(before == PTHREAD_CANCEL_DISABLE);
}

/* ---- Forks */

/* Runs in a child. Its status says whether all is as it must be. */
static int see_as_child(CK_SESSION_HANDLE session, CK_RV expected) {
    CK_SESSION_INFO session_info;
    CK_TOKEN_INFO token;
    for (int file = STDIN_FILENO; file <= STDERR_FILENO; file++) {
        if (fcntl(file, F_GETFD) < 0)
            return 6;
    }
    if (p11->C_GetSessionInfo(session, &session_info) != CKR_CRYPTOKI_NOT_INITIALIZED)
        return 1;
    if (__lsan_do_recoverable_leak_check())
        return 7;
    if (p11->C_Initialize(NULL) != expected)
        return 2;
    if (expected != CKR_OK)
        return 0;
    if (p11->C_GetSessionInfo(session, &session_info) != CKR_SESSION_HANDLE_INVALID)
        return 3;
    if (p11->C_GetTokenInfo(0, &token) != CKR_OK || (token.flags & CKF_TOKEN_INITIALIZED) != 0)
        return 4;
    return p11->C_Finalize(NULL) == CKR_OK ? 0 : 5;
}

static int status_of(pid_t child) {
    int status = -1;
    waitpid(child, &status, 0);
    return WIFEXITED(status) ? WEXITSTATUS(status) : -1;
}

static int run_child(CK_SESSION_HANDLE session, CK_RV expected) {
    fflush(NULL);
    pid_t child = fork();
    if (child == 0)
        _exit(see_as_child(session, expected));
    return status_of(child);
}

static void test_fork(void) {
    CK_SESSION_INFO info;
    CK_SESSION_HANDLE session = begin_token();
    CHECK(run_child(session, CKR_OK) == 0);
    EXPECT(CKR_OK, p11->C_GetSessionInfo(session, &info));
    CHECK(info.state == CKS_RW_USER_FUNCTIONS);
    CHECK(run_child(session, CKR_OK) == 0);
    CK_OBJECT_HANDLE object = create_data(session, "of the parent");
    EXPECT(CKR_OK, p11->C_DestroyObject(session, object));
    end_token();
}

/* A child calls none of the functions for its parent's mutex. */
static int see_mutex_as_child(CK_SESSION_HANDLE session) {
    CK_SESSION_INFO info;
    int locks_before = locks, unlocks_before = unlocks;
    if (p11->C_GetSessionInfo(session, &info) != CKR_CRYPTOKI_NOT_INITIALIZED)
        return 1;
    if (p11->C_Initialize(NULL) != CKR_OK || p11->C_Finalize(NULL) != CKR_OK)
        return 2;
    return locks == locks_before && unlocks == unlocks_before && destroyed == 0 ? 0 : 3;
}

static void test_fork_and_mutex(void) {
    CK_SESSION_INFO info;
    CK_C_INITIALIZE_ARGS arguments = mutex_arguments();
    CK_SESSION_HANDLE session = begin_token_with(&arguments);
    fflush(NULL);
    pid_t child = fork();
    if (child == 0)
        _exit(see_mutex_as_child(session));
    CHECK(status_of(child) == 0);
    EXPECT(CKR_OK, p11->C_GetSessionInfo(session, &info));
    end_token();
    CHECK(destroyed == 1 && locks == unlocks);
}

/* Standard error goes to a file until `read_errors`. */
static int kept_errors = -1;

static void keep_errors(void) {
    fflush(stderr);
    kept_errors = dup(STDERR_FILENO);
    if (freopen(path_of("errors"), "w", stderr) == NULL)
        exit(2);
}

static size_t read_errors(char *text, size_t room) {
    fflush(stderr);
    dup2(kept_errors, STDERR_FILENO);
    close(kept_errors);
    FILE *file = fopen(path_of("errors"), "r");
    size_t count = file == NULL ? 0 : fread(text, 1, room - 1, file);
    if (file != NULL)
        fclose(file);
    text[count] = '\0';
    return count;
}

/* In place of the C library's function: it closes the file, and answers this error where it isn't
 * 0. A thread that is cancelled ends here, as it does in that function. */
static int close_error;

int close(int file) {
    pthread_testcancel();
    int result = (int)syscall(SYS_close, file);
    if (result != 0 || close_error == 0)
        return result;
    errno = close_error;
    return -1;
}

/* A file system may say only at the end that there was no room. */
static void test_failed_close(void) {
    char text[2000];
    setenv("OSPREYRACK_JOURNAL", path_of("lost.cases"), 1);
    EXPECT(CKR_OK, p11->C_Initialize(NULL));
    unsetenv("OSPREYRACK_JOURNAL");
    keep_errors();
    close_error = ENOSPC;
    CK_RV code = p11->C_Finalize(NULL);
    close_error = 0;
    read_errors(text, sizeof text);
    EXPECT(CKR_OK, code);
    check(strcmp(text, "ospreyrack: OSPREYRACK_JOURNAL: calls at the end may be missing: "
                 "No space left on device\n") == 0, text);
}

/* The lock on the file stays the parent's. */
static void test_fork_with_file(void) {
    char text[2000];
    setenv("OSPREYRACK_TOKEN", path_of("forked.cases"), 1);
    EXPECT(CKR_OK, p11->C_Initialize(NULL));
    CK_SESSION_HANDLE session = log_in();
    for (int i = 0; i < 2; i++) {
        keep_errors();
        int status = run_child(session, CKR_GENERAL_ERROR);
        read_errors(text, sizeof text);
        CHECK(status == 0);
        CHECK(strstr(text, "ospreyrack: OSPREYRACK_TOKEN: ") != NULL);
    }
    create_data(session, "of the parent");
    end_token();
    unsetenv("OSPREYRACK_TOKEN");
}

/* ---- Random bytes */

/* At each place some of eight outputs has another byte than stood there before. */
static void check_random_bytes(CK_SESSION_HANDLE session, CK_ULONG count) {
    CK_BYTE seen[1000] = {0}, made[1000];
    for (int i = 0; i < 8; i++) {
        memset(made, 0, sizeof made);
        EXPECT(CKR_OK, p11->C_GenerateRandom(session, made, count));
        for (CK_ULONG place = 0; place < count; place++)
            seen[place] |= made[place];
    }
    check(memchr(seen, 0, count) == NULL, "C_GenerateRandom writes each byte");
}

/* Of many bytes each part is written. */
static void check_many_random_bytes(CK_SESSION_HANDLE session) {
    enum { MANY_BYTES = 200000, PART = 1000 };
    uint8_t *out = guarded_new(MANY_BYTES);
    size_t written = 0;
    EXPECT(CKR_OK, p11->C_GenerateRandom(session, out, MANY_BYTES));
    for (size_t place = 0; place < MANY_BYTES; place += PART)
        written += guarded_is_written(out + place, PART);
    CHECK(written == MANY_BYTES / PART);
    CHECK(guarded_is_intact(out, MANY_BYTES, MANY_BYTES));
    guarded_free(out);
}

static void test_random(void) {
    CK_SESSION_HANDLE session = begin_token();
    uint8_t *first = guarded_new(1000), *second = guarded_new(1000);
    EXPECT(CKR_OK, p11->C_GenerateRandom(session, first, 999));
    EXPECT(CKR_OK, p11->C_GenerateRandom(session, second, 999));
    CHECK(guarded_is_intact(first, 1000, 999) && guarded_is_intact(second, 1000, 999));
    CHECK(memcmp(first, second, 999) != 0);
    CHECK(memcmp(first, first + 500, 499) != 0);
    for (CK_ULONG count = 1; count <= 1000; count = 10 * count)
        check_random_bytes(session, count);
    check_many_random_bytes(session);
    EXPECT(CKR_SESSION_HANDLE_INVALID, p11->C_GenerateRandom(session + 1, first, 1));
    EXPECT(CKR_RANDOM_SEED_NOT_SUPPORTED, p11->C_SeedRandom(session, first, 4));
    EXPECT(CKR_RANDOM_SEED_NOT_SUPPORTED, p11->C_SeedRandom(session, NULL, 0));
    EXPECT(CKR_SESSION_HANDLE_INVALID, p11->C_SeedRandom(session + 1, first, 4));
    guarded_free(first);
    guarded_free(second);
    end_token();
}

/* Nothing is written behind the bytes, also where their number isn't one of whole words. */
static void check_random_lengths(CK_SESSION_HANDLE session) {
    for (CK_ULONG count = 1; count <= 17; count++) {
        uint8_t *out = guarded_new(24);
        EXPECT(CKR_OK, p11->C_GenerateRandom(session, out, count));
        CHECK(guarded_is_intact(out, 24, count));
        guarded_free(out);
    }
}

/* A line on standard error says that the bytes follow from the seed. */
static void test_seeded_random(void) {
    char text[2000];
    setenv("OSPREYRACK_SEED", "5", 1);
    keep_errors();
    CK_SESSION_HANDLE session = begin_token();
    size_t count = read_errors(text, sizeof text);
    unsetenv("OSPREYRACK_SEED");
    CHECK(count > 0);
    check_random_bytes(session, 1000);
    check_random_bytes(session, 1);
    check_random_lengths(session);
    end_token();
}

/* The first random bytes of a seed, also behind a C_GenerateKey without a place for the handle, one
 * with a bad attribute, and one whose CKA_VALUE_LEN has more bytes than a number. */
static void first_bytes_of_seed(bool is_behind_bad_call, CK_BYTE *out) {
    CK_MECHANISM generation = mechanism_of(CKM_GENERIC_SECRET_KEY_GEN);
    CK_ULONG key_length = 16;
    CK_OBJECT_HANDLE handle = 0;
    CK_ATTRIBUTE key[] = {{CKA_VALUE_LEN, &key_length, sizeof key_length}, {CKA_LABEL, NULL, 1}};
    CK_ULONG two_numbers[] = {16, 0};
    CK_ATTRIBUTE longer = {CKA_VALUE_LEN, two_numbers, sizeof two_numbers};
    setenv("OSPREYRACK_SEED", "5", 1);
    keep_errors();
    CK_SESSION_HANDLE session = begin_token();
    char text[2000];
    read_errors(text, sizeof text);
    unsetenv("OSPREYRACK_SEED");
    if (is_behind_bad_call) {
        EXPECT(CKR_ARGUMENTS_BAD, p11->C_GenerateKey(session, &generation, key, 1, NULL));
        EXPECT(CKR_ATTRIBUTE_VALUE_INVALID,
               p11->C_GenerateKey(session, &generation, key, 2, &handle));
        EXPECT(CKR_ATTRIBUTE_VALUE_INVALID,
               p11->C_GenerateKey(session, &generation, &longer, 1, &handle));
    }
    EXPECT(CKR_OK, p11->C_GenerateRandom(session, out, 16));
    end_token();
}

static void begin_anew_with_seed(void) {
    char text[2000];
    EXPECT(CKR_OK, p11->C_Finalize(NULL));
    CK_C_INITIALIZE_ARGS arguments = mutex_arguments();
    setenv("OSPREYRACK_SEED", "5", 1);
    keep_errors();
    begin_token_with(&arguments);
    read_errors(text, sizeof text);
    unsetenv("OSPREYRACK_SEED");
}

/* Another thread has put a token with a seed in place of the call's own, which has none, once the
 * lock is free: the bytes are the system's all the same. */
static void test_seed_in_between(void) {
    CK_BYTE out[32] = {0}, none[32] = {0};
    CK_C_INITIALIZE_ARGS arguments = mutex_arguments();
    CK_SESSION_HANDLE session = begin_token_with(&arguments);
    unlocks_until_change = 1;
    change = begin_anew_with_seed;
    EXPECT(CKR_OK, p11->C_GenerateRandom(session, out, sizeof out));
    CHECK(unlocks_until_change == 0);
    CHECK(memcmp(out, none, sizeof out) != 0);
    end_token();
}

static void test_seed_and_bad_call(void) {
    CK_BYTE first[16] = {0}, second[16] = {0};
    first_bytes_of_seed(false, first);
    first_bytes_of_seed(true, second);
    CHECK(memcmp(first, second, sizeof first) == 0);
}

/* ---- Environment variables */

static void write_file(const char *name, const char *text) {
    FILE *file = fopen(path_of(name), "w");
    if (file == NULL || fputs(text, file) < 0 || fclose(file) != 0)
        exit(2);
}

/* C_Initialize fails with one line that names the variable, of a long name its first 60 letters. */
static void check_variable(const char *variable, const char *value, const char *part) {
    char text[2000], start[100];
    snprintf(start, sizeof start, "ospreyrack: %.60s: ", variable);
    setenv(variable, value, 1);
    keep_errors();
    CK_RV code = p11->C_Initialize(NULL);
    size_t count = read_errors(text, sizeof text);
    check_code(code, CKR_GENERAL_ERROR, value);
    check(strncmp(text, start, strlen(start)) == 0, text);
    check(strstr(text, part) != NULL, text);
    check(count > 0 && strchr(text, '\n') == text + count - 1, "the message is one line");
    unsetenv(variable);
    check_code(p11->C_Initialize(NULL), CKR_OK, "C_Initialize without the bad variable");
    end_token();
}

static void check_file_variable(const char *variable, const char *name, const char *part) {
    char value[4096];
    snprintf(value, sizeof value, "%s", path_of(name));
    check_variable(variable, value, part);
}

static void check_seed(const char *value) {
    char part[100];
    snprintf(part, sizeof part, ": the value is a decimal number below 2^64, and not %s\n", value);
    check_variable("OSPREYRACK_SEED", value, part);
}

/* A variable that isn't the module's is passed over, however near its name is. */
static void check_other_variable(const char *name) {
    setenv(name, "OSPREYRACK_SEED=x", 1);
    EXPECT(CKR_OK, p11->C_Initialize(NULL));
    EXPECT(CKR_OK, p11->C_Finalize(NULL));
    unsetenv(name);
}

static void test_bad_variables(void) {
    static const char *const seeds[] = {"x", "-1", "+1", " 1", "1 ", "0x10", "1.0",
                                        "18446744073709551616"};
    static const char *const known[] = {"OSPREYRACK_SEED", "OSPREYRACK_CUT", "OSPREYRACK_SCRIPT",
                                        "OSPREYRACK_JOURNAL", "OSPREYRACK_TOKEN"};
    static const char *const unknown[] = {
        "OSPREYRACK_SEEDS", "OSPREYRACK_",
        "OSPREYRACK_0123456789012345678901234567890123456789012345678901234567890",
    };
    static const char *const others[] = {"OSPREYRACK", "OSPREYRACKS", "ospreyrack_seed",
                                         "MY_OSPREYRACK_SEED"};
    for (size_t i = 0; i < sizeof seeds / sizeof *seeds; i++)
        check_seed(seeds[i]);
    for (size_t i = 0; i < sizeof known / sizeof *known; i++)
        check_variable(known[i], "", ": the value is empty\n");
    for (size_t i = 0; i < sizeof unknown / sizeof *unknown; i++)
        check_variable(unknown[i], "1", ": there is no such variable\n");
    for (size_t i = 0; i < sizeof others / sizeof *others; i++)
        check_other_variable(others[i]);
    check_variable("OSPREYRACK_CUT", "maybe", ": the value is yes or no, and not maybe\n");
    check_variable("OSPREYRACK_CUT", "YES", ": the value is yes or no, and not YES\n");
    check_variable("OSPREYRACK_CUT", "yess", ": the value is yes or no, and not yess\n");
    check_variable("OSPREYRACK_CUT", "now", ": the value is yes or no, and not now\n");
}

/* Whatever bytes a value or a file has, the message is one line, in which a terminal finds nothing
 * to obey. */
static void test_control_bytes(void) {
    char text[2000];
    check_variable("OSPREYRACK_SEED", "1\n2", ", and not 1?2\n");
    check_variable("OSPREYRACK_CUT", "\x1b[31m\t\x7f\r\x1f ", ", and not ?[31m???? \n");
    check_variable("OSPREYRACK_CUT", "\xc3\xa9\xc3\x9f\xe2\x80\x9c~",
                   ", and not \xc3\xa9\xc3\x9f\xe2\x80\x9c~\n");
    check_variable("OSPREYRACK_CUT", "\xc2\x80\xc2\x9b" "2J\xc2\x9f\xc2\xa0",
                   ", and not ????2J??\xc2\xa0\n");
    check_variable("OSPREYRACK_CUT", "\xc2", ", and not \xc2\n");
    check_variable("OSPREYRACK_SCRIPT", "/not\nthere", ": /not?there: the file can't be opened: ");
    write_file("control_bytes", "1 InitToken 31323334 -> \x1b[2J\n");
    check_file_variable("OSPREYRACK_SCRIPT", "control_bytes",
                        "line 1: the reply is 0, and not ?[2J\n");
    setenv("OSPREYRACK_\n", "1", 1);
    keep_errors();
    CK_RV code = p11->C_Initialize(NULL);
    read_errors(text, sizeof text);
    unsetenv("OSPREYRACK_\n");
    EXPECT(CKR_GENERAL_ERROR, code);
    check(strcmp(text, "ospreyrack: OSPREYRACK_?: there is no such variable\n") == 0, text);
}

/* Of a value that is too long for the line the beginning is shown. */
static void test_long_value(void) {
    enum { VALUE = 20000, LINE = 8191 };
    static char value[VALUE + 1], text[VALUE];
    memset(value, 'x', VALUE);
    setenv("OSPREYRACK_SEED", value, 1);
    keep_errors();
    CK_RV code = p11->C_Initialize(NULL);
    size_t count = read_errors(text, sizeof text);
    unsetenv("OSPREYRACK_SEED");
    EXPECT(CKR_GENERAL_ERROR, code);
    CHECK(count == LINE);
    CHECK(strchr(text, '\n') == text + count - 1);
}

/* The application may have cleared its environment by this. */
static void test_no_environment(void) {
    char **kept = environ;
    environ = NULL;
    CK_RV code = p11->C_Initialize(NULL);
    environ = kept;
    check_code(code, CKR_OK, "C_Initialize without an environment");
    EXPECT(CKR_OK, p11->C_Finalize(NULL));
}

/* The application's mutex is given back, and its functions aren't called any more. */
static void test_bad_variable_and_mutexes(void) {
    char text[2000];
    CK_INFO info;
    CK_C_INITIALIZE_ARGS arguments = mutex_arguments();
    setenv("OSPREYRACK_SEED", "x", 1);
    keep_errors();
    CK_RV code = p11->C_Initialize(&arguments);
    read_errors(text, sizeof text);
    unsetenv("OSPREYRACK_SEED");
    EXPECT(CKR_GENERAL_ERROR, code);
    CHECK(mutexes == 1 && destroyed == 1 && depth == 0);
    int before = locks;
    EXPECT(CKR_OK, p11->C_Initialize(NULL));
    EXPECT(CKR_OK, p11->C_GetInfo(&info));
    EXPECT(CKR_OK, p11->C_Finalize(NULL));
    CHECK(mutexes == 1 && destroyed == 1 && locks == before);
}

static const char bad_reply[] = "1 InitToken 31323334 -> 0\n1 OpenSession 6 -> 0 2\n";
static const char no_journal[] = "This is a text.\nIt isn't a journal.\n";
static const char script[] = "# a script\n1 InitToken 31323334\n1 OpenSession 6\n";
static const char open_script[] = "# a script\n1 InitToken 31323334\n1 OpenSession 6";
static const char other_limits[] = "limits 64 9 9 9\n1 InitToken 31323334 -> 0\n";
static const char late_limits[] = "1 InitToken 31323334 -> 0\nlimits largest\n";
static const char with_returns[] = "limits largest\r\n1 InitToken 31323334 -> 0\r\n";
static const char return_behind_call[] = "limits largest\n1 InitToken 31323334\r\n";
static const char return_behind_reply[] = "limits largest\n1 OpenSession six -> 0 1\r\n";

static bool has_length(const char *name, size_t expected) {
    struct stat status;
    return stat(path_of(name), &status) == 0 && (size_t)status.st_size == expected;
}

static bool is_there(const char *name) {
    return access(path_of(name), F_OK) == 0;
}

/* A file that is no journal, or none of this token, is left as it is. */
static void test_no_journals(void) {
    static const struct { const char *name, *text, *part; } files[] = {
        {"no_journal", no_journal, "line 1"},
        {"bad_reply", bad_reply, "line 2"},
        {"script", script, "this is no journal: it has neither limits nor a reply"},
        {"open_script", open_script, "this is no journal: it has neither limits nor a reply"},
        {"other_limits", other_limits, "line 1: the module's token has the largest limits"},
        {"late_limits", late_limits, "line 2: limits stand in front of all calls"},
        {"with_returns", with_returns, "line 1: a carriage return stands at the end of the line"},
        {"return_behind_call", return_behind_call,
         "line 2: a carriage return stands at the end of the line"},
        {"return_behind_reply", return_behind_reply,
         "line 2: a carriage return stands at the end of the line"},
    };
    for (size_t i = 0; i < sizeof files / sizeof *files; i++) {
        write_file(files[i].name, files[i].text);
        check_file_variable("OSPREYRACK_TOKEN", files[i].name, files[i].part);
        check(has_length(files[i].name, strlen(files[i].text)), files[i].name);
    }
}

/* Scripts that aren't answered to their ends. What stands in front of a bad line, such as limits or
 * a reply, makes it no better. */
static void check_bad_scripts(void) {
    static const struct { const char *name, *text, *part; } scripts[] = {
        {"bad_code", "1 InitToken 313233\n", "bad_code, line 1: the reply is a2\n"},
        {"code_behind_limits", "limits largest\n1 InitToken 313233\n",
         "line 2: the reply is a2\n"},
        {"code_behind_reply", "1 InitToken 31323334 -> 0\n1 CloseSession 1\n",
         "line 2: the reply is b3\n"},
        {"late_limits_of_script", "1 InitToken 31323334\nlimits largest\n",
         "line 2: limits stand in front of all calls\n"},
    };
    for (size_t i = 0; i < sizeof scripts / sizeof *scripts; i++) {
        write_file(scripts[i].name, scripts[i].text);
        check_file_variable("OSPREYRACK_SCRIPT", scripts[i].name, scripts[i].part);
    }
}

static void test_bad_files(void) {
    write_file("bad_line", "1 InitToken 31323334 -> 0\n\n# a comment\n1 OpenSession six\n");
    write_file("bad_reply", bad_reply);
    write_file("long_reply", "1 GetMechanismList -> 0 252,251,250,262,261,260,272,271,270,282\n");
    write_file("no_journal", no_journal);
    mkdir(path_of("folder"), 0700);
    check_file_variable("OSPREYRACK_SCRIPT", "not_there", "not_there");
    check_file_variable("OSPREYRACK_SCRIPT", "bad_line", "line 4: this is no call (ck_cases says "
                        "why)\n");
    check_file_variable("OSPREYRACK_SCRIPT", "bad_reply", "line 2: the reply is 0 1, and not 0 2");
    check_bad_scripts();
    /* The first 40 bytes of each reply are shown. */
    check_file_variable("OSPREYRACK_SCRIPT", "long_reply", "line 1: the reply is "
                        "0 250,251,252,255,256,257,260,261,262,27, and not "
                        "0 252,251,250,262,261,260,272,271,270,28\n");
    check_file_variable("OSPREYRACK_SCRIPT", "folder", "folder: the file can't be read: Is a "
                        "directory\n");
    check_file_variable("OSPREYRACK_JOURNAL", "not_there/journal", "not_there/journal: the file "
                        "can't be opened: No such file or directory\n");
    check_file_variable("OSPREYRACK_JOURNAL", "no_journal", "no_journal");
    check_file_variable("OSPREYRACK_JOURNAL", "folder", "folder");
    check_file_variable("OSPREYRACK_TOKEN", "folder", "folder");
    CHECK(has_length("no_journal", sizeof no_journal - 1));
    setenv("OSPREYRACK_TOKEN", path_of("unused.cases"), 1);
    check_file_variable("OSPREYRACK_JOURNAL", "unused_too.cases",
                        ": OSPREYRACK_TOKEN is a journal: set only one of the two\n");
    CHECK(!is_there("unused_too.cases"));
    unsetenv("OSPREYRACK_TOKEN");
}

static int count_open_files(void) {
    enum { MOST_FILES = 1024 };
    int count = 0;
    for (int file = 0; file < MOST_FILES; file++)
        count += fcntl(file, F_GETFD) >= 0;
    return count;
}

/* The script has been read, and no file is open that wasn't before. */
static void check_closed_script(void) {
    CK_TOKEN_INFO info;
    int before = count_open_files();
    EXPECT(CKR_OK, p11->C_Initialize(NULL));
    CHECK(count_open_files() == before);
    EXPECT(CKR_OK, p11->C_GetTokenInfo(0, &info));
    CHECK((info.flags & CKF_TOKEN_INITIALIZED) != 0);
    EXPECT(CKR_OK, p11->C_Finalize(NULL));
}

/* The script is closed when it is read, also where its descriptor is that of standard input, or one
 * of its lines is bad. */
static void test_closed_script(void) {
    char text[2000];
    write_file("closed_script", script);
    setenv("OSPREYRACK_SCRIPT", path_of("closed_script"), 1);
    check_closed_script();
    int input = dup(STDIN_FILENO);
    close(STDIN_FILENO);
    check_closed_script();
    dup2(input, STDIN_FILENO);
    close(input);
    int before = count_open_files();
    write_file("closed_script", bad_reply);
    keep_errors();
    CK_RV code = p11->C_Initialize(NULL);
    read_errors(text, sizeof text);
    unsetenv("OSPREYRACK_SCRIPT");
    EXPECT(CKR_GENERAL_ERROR, code);
    CHECK(count_open_files() == before);
}

/* ---- The application's signals. What the module writes may raise two of them. */

static void change_signals(int how) {
    sigset_t signals;
    sigemptyset(&signals);
    sigaddset(&signals, SIGXFSZ);
    sigaddset(&signals, SIGPIPE);
    pthread_sigmask(how, &signals, NULL);
}

static void check_mask(const sigset_t *before, const char *what) {
    sigset_t after;
    int changed = 0;
    pthread_sigmask(SIG_SETMASK, NULL, &after);
    for (int number = 1; number <= SIGRTMAX; number++)
        changed += sigismember(&after, number) != sigismember(before, number);
    check(changed == 0, what);
}

/* With the two signals blocked or free, a line on standard error and one in a file are written. */
static void check_signals(int how) {
    char text[2000];
    CK_TOKEN_INFO info;
    sigset_t before;
    change_signals(how);
    pthread_sigmask(SIG_SETMASK, NULL, &before);
    setenv("OSPREYRACK_SEED", "5", 1);
    setenv("OSPREYRACK_TOKEN", path_of("signals.cases"), 1);
    keep_errors();
    CK_RV code = p11->C_Initialize(NULL);
    check(read_errors(text, sizeof text) > 0, "a line is written");
    unsetenv("OSPREYRACK_SEED");
    unsetenv("OSPREYRACK_TOKEN");
    EXPECT(CKR_OK, code);
    check_mask(&before, "the signals behind C_Initialize");
    EXPECT(CKR_OK, p11->C_GetTokenInfo(0, &info));
    check_mask(&before, "the signals behind a call");
    end_token();
    check_mask(&before, "the signals behind C_Finalize");
    change_signals(SIG_UNBLOCK);
}

static void test_signals(void) {
    check_signals(SIG_BLOCK);
    check_signals(SIG_UNBLOCK);
}

static volatile sig_atomic_t caught;

static void catch_signal(int number) {
    (void)number;
    caught++;
}

/* One that no write raises, and that the application has blocked, stays pending while lines are
 * written. */
static void check_other_signal(void) {
    sigset_t signals, pending;
    caught = 0;
    signal(SIGUSR1, catch_signal);
    sigemptyset(&signals);
    sigaddset(&signals, SIGUSR1);
    pthread_sigmask(SIG_BLOCK, &signals, NULL);
    raise(SIGUSR1);
    check_signals(SIG_UNBLOCK);
    sigpending(&pending);
    CHECK(sigismember(&pending, SIGUSR1) == 1 && caught == 0);
    pthread_sigmask(SIG_UNBLOCK, &signals, NULL);
    CHECK(caught == 1);
    signal(SIGUSR1, SIG_DFL);
}

/* Until `read_errors` nobody reads standard error. */
static void lose_errors(void) {
    int ends[2];
    keep_errors();
    if (pipe(ends) != 0)
        exit(2);
    close(ends[0]);
    dup2(ends[1], STDERR_FILENO);
    close(ends[1]);
}

/* Whether SIGPIPE is left to the application by a line that nobody reads. It is taken then. */
static bool leaves_signal(int how) {
    const struct timespec no_time = {0};
    char text[2000];
    sigset_t signals;
    change_signals(how);
    setenv("OSPREYRACK_SEED", "5", 1);
    lose_errors();
    CK_RV code = p11->C_Initialize(NULL);
    read_errors(text, sizeof text);
    unsetenv("OSPREYRACK_SEED");
    EXPECT(CKR_OK, code);
    end_token();
    sigpending(&signals);
    bool is_pending = sigismember(&signals, SIGPIPE) == 1;
    sigemptyset(&signals);
    sigaddset(&signals, SIGPIPE);
    if (is_pending)
        sigtimedwait(&signals, NULL, &no_time);
    change_signals(SIG_UNBLOCK);
    return is_pending;
}

/* One that it has blocked itself stays pending, and one that it hasn't doesn't reach it. */
static void test_pending_signal(void) {
    CHECK(leaves_signal(SIG_BLOCK));
    CHECK(!leaves_signal(SIG_UNBLOCK));
    check_other_signal();
}

/* ---- Memory */

static void use_and_end(void) {
    CK_SESSION_HANDLE session = begin_token();
    CK_MECHANISM sha256 = mechanism_of(CKM_SHA256);
    CK_BYTE digest[32];
    CK_ULONG digest_length = sizeof digest;
    create_key(session, "Jefe");
    EXPECT(CKR_OK, p11->C_DigestInit(session, &sha256));
    EXPECT(CKR_OK, p11->C_Digest(session, bytes, 5, digest, &digest_length));
    EXPECT(CKR_OK, p11->C_FindObjectsInit(session, NULL, 0));
    EXPECT(CKR_OK, p11->C_DigestInit(session, &sha256));
    EXPECT(CKR_OK, p11->C_DigestUpdate(session, bytes, 5));
    end_token();
}

static void test_leaks(void) {
    char text[2000];
    write_file("bad_reply", bad_reply);
    for (int i = 0; i < 10; i++)
        use_and_end();
    setenv("OSPREYRACK_SCRIPT", path_of("bad_reply"), 1);
    keep_errors();
    CK_RV code = p11->C_Initialize(NULL);
    read_errors(text, sizeof text);
    EXPECT(CKR_GENERAL_ERROR, code);
    unsetenv("OSPREYRACK_SCRIPT");
    check(__lsan_do_recoverable_leak_check() == 0, "no memory is lost");
}

static const struct test tests[] = {
    {"random bytes", test_random},
    {"random bytes of a seed", test_seeded_random},
    {"random bytes of a seed behind a call that is refused", test_seed_and_bad_call},
    {"random bytes while another token begins, which has a seed", test_seed_in_between},
    {"a thread that is cancelled in a call leaves no lock", test_cancelled_thread},
    {"a thread that is cancelled in C_Initialize or C_Finalize leaves no lock",
     test_cancelled_beginning_and_end},
    {"a thread that can't be cancelled can't be so after calls either", test_forbidden_cancel},
    {"a child of a fork begins anew, and its parent goes on", test_fork},
    {"a child of a fork calls no function for its parent's mutex", test_fork_and_mutex},
    {"a child of a fork leaves the parent's file and its lock alone", test_fork_with_file},
    {"what the system says when the file is closed is told", test_failed_close},
    {"bad environment variables, and then none", test_bad_variables},
    {"control bytes in environment variables and in files", test_control_bytes},
    {"an environment variable whose value is longer than a line", test_long_value},
    {"an environment that is NULL", test_no_environment},
    {"a bad environment variable and the application's mutex", test_bad_variable_and_mutexes},
    {"bad files in environment variables, and then none", test_bad_files},
    {"a file that is no journal is left as it is", test_no_journals},
    {"the script is closed when it is read", test_closed_script},
    {"the signals that the application has blocked are the same behind calls", test_signals},
    {"a signal that the application has blocked stays pending", test_pending_signal},
    {"no memory is lost, by C_Finalize or by a C_Initialize that fails", test_leaks},
};

int run_environment_tests(const char *name) {
    return run_tests(name, tests, sizeof tests / sizeof *tests);
}
