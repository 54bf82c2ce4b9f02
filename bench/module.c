/*
 * Measures functions of a PKCS #11 module that is loaded as applications load it, and writes a line
 * for each: its name and how many nanoseconds a round took. `module.py` compiles and runs this.
 *
 *     module MODULE THREADS [PARAMETERS]
 *     module MODULE few
 *
 * PARAMETERS is what the module is given at C_Initialize as NSS's library wants it; a module
 * without them is a token that is initialized here. Of one thread the best row of rounds counts,
 * half a millisecond long, which other work of the machine disturbs less than the mean of all. With
 * `few` one thread makes the rounds that `token.c` has, too.
 */
#include <dlfcn.h>
#include <pkcs11.h>
#include <pthread.h>
#include <stdbool.h>
#include <stdio.h>
#include <stdlib.h>
#include <string.h>
#include <time.h>

#define LONGEST_MESSAGE (1u << 20)
#define OBJECTS 10000
#define ROUND_SECONDS 0.5
#define ROW_SECONDS 0.0005
#define WAIT_SECONDS 1.0
#define MOST_THREADS 16

static CK_FUNCTION_LIST_PTR token;
static CK_SLOT_ID slot;
static CK_BYTE message[LONGEST_MESSAGE];
static CK_BBOOL no = CK_FALSE;
static CK_OBJECT_CLASS data_class = CKO_DATA;
static CK_OBJECT_CLASS key_class = CKO_SECRET_KEY;
static CK_KEY_TYPE key_type = CKK_GENERIC_SECRET;

/* A thread with a session, an object and a key of its own. */
struct worker {
    pthread_t thread;
    CK_SESSION_HANDLE session;
    CK_OBJECT_HANDLE object;
    CK_OBJECT_HANDLE key;
    void (*round)(struct worker *);
    unsigned long rounds;
};

static void expect(CK_RV rv, const char *what)
{
    if (rv != CKR_OK) {
        fprintf(stderr, "module: %s is answered 0x%lx\n", what, rv);
        exit(1);
    }
}

static double now(void)
{
    struct timespec time;
    clock_gettime(CLOCK_MONOTONIC, &time);
    return (double)time.tv_sec + (double)time.tv_nsec / 1e9;
}

/* ---- Rounds */

static CK_SESSION_HANDLE open_session(void)
{
    CK_SESSION_HANDLE session;
    expect(token->C_OpenSession(slot, CKF_SERIAL_SESSION | CKF_RW_SESSION, NULL, NULL, &session),
           "C_OpenSession");
    return session;
}

static CK_OBJECT_HANDLE create_data(CK_SESSION_HANDLE session, const char *label)
{
    CK_OBJECT_HANDLE object;
    CK_ATTRIBUTE template[] = {
        {CKA_CLASS, &data_class, sizeof data_class},
        {CKA_TOKEN, &no, sizeof no},
        {CKA_PRIVATE, &no, sizeof no},
        {CKA_LABEL, (void *)label, strlen(label)},
        {CKA_VALUE, message, 32},
    };
    expect(token->C_CreateObject(session, template, 5, &object), "C_CreateObject");
    return object;
}

static CK_OBJECT_HANDLE create_key(CK_SESSION_HANDLE session)
{
    CK_OBJECT_HANDLE key;
    CK_BBOOL yes = CK_TRUE;
    CK_ATTRIBUTE template[] = {
        {CKA_CLASS, &key_class, sizeof key_class},
        {CKA_KEY_TYPE, &key_type, sizeof key_type},
        {CKA_TOKEN, &no, sizeof no},
        {CKA_PRIVATE, &no, sizeof no},
        {CKA_SIGN, &yes, sizeof yes},
        {CKA_VALUE, message, 32},
    };
    expect(token->C_CreateObject(session, template, 6, &key), "C_CreateObject of a key");
    return key;
}

static void session_info(struct worker *worker)
{
    CK_SESSION_INFO info;
    expect(token->C_GetSessionInfo(worker->session, &info), "C_GetSessionInfo");
}

static void token_info(struct worker *worker)
{
    CK_TOKEN_INFO info;
    (void)worker;
    expect(token->C_GetTokenInfo(slot, &info), "C_GetTokenInfo");
}

static void open_and_close(struct worker *worker)
{
    (void)worker;
    expect(token->C_CloseSession(open_session()), "C_CloseSession");
}

static void label(struct worker *worker)
{
    CK_BYTE room[32];
    CK_ATTRIBUTE query = {CKA_LABEL, room, sizeof room};
    expect(token->C_GetAttributeValue(worker->session, worker->object, &query, 1),
           "C_GetAttributeValue");
}

static void create_and_destroy(struct worker *worker)
{
    CK_OBJECT_HANDLE object = create_data(worker->session, "round");
    expect(token->C_DestroyObject(worker->session, object), "C_DestroyObject");
}

static void digest(struct worker *worker, CK_ULONG length)
{
    CK_MECHANISM mechanism = {CKM_SHA256, NULL, 0};
    CK_BYTE room[32];
    CK_ULONG room_length = sizeof room;
    expect(token->C_DigestInit(worker->session, &mechanism), "C_DigestInit");
    expect(token->C_Digest(worker->session, message, length, room, &room_length), "C_Digest");
}

static void digest_of_64_bytes(struct worker *worker)
{
    digest(worker, 64);
}

static void digest_of_64_kib(struct worker *worker)
{
    digest(worker, 1u << 16);
}

static void digest_of_1_mib(struct worker *worker)
{
    digest(worker, 1u << 20);
}

static void sign_64_bytes(struct worker *worker)
{
    CK_MECHANISM mechanism = {CKM_SHA256_HMAC, NULL, 0};
    CK_BYTE room[32];
    CK_ULONG length = sizeof room;
    expect(token->C_SignInit(worker->session, &mechanism, worker->key), "C_SignInit");
    expect(token->C_Sign(worker->session, message, 64, room, &length), "C_Sign");
}

static void find_one(struct worker *worker)
{
    CK_OBJECT_HANDLE found[2];
    CK_ULONG count;
    CK_ATTRIBUTE template = {CKA_LABEL, "object 5000", 11};
    expect(token->C_FindObjectsInit(worker->session, &template, 1), "C_FindObjectsInit");
    expect(token->C_FindObjects(worker->session, found, 2, &count), "C_FindObjects");
    expect(token->C_FindObjectsFinal(worker->session), "C_FindObjectsFinal");
    expect(count == 1 ? CKR_OK : CKR_GENERAL_ERROR, "C_FindObjects of one object");
}

/* ---- Threads */

static volatile bool stop;

static void *work(void *argument)
{
    struct worker *worker = argument;
    while (!stop) {
        worker->round(worker);
        worker->rounds++;
    }
    return NULL;
}

/* The nanoseconds that a round takes where all threads make rounds, counted over all of them. */
static double measure(struct worker *workers, unsigned threads, void (*round)(struct worker *))
{
    unsigned long rounds = 0;
    double begin = now();
    stop = false;
    for (unsigned i = 0; i < threads; i++) {
        workers[i].round = round;
        workers[i].rounds = 0;
        pthread_create(&workers[i].thread, NULL, work, &workers[i]);
    }
    while (now() - begin < ROUND_SECONDS)
        nanosleep(&(struct timespec){0, 1000000}, NULL);
    stop = true;
    for (unsigned i = 0; i < threads; i++) {
        pthread_join(workers[i].thread, NULL);
        rounds += workers[i].rounds;
    }
    return (now() - begin) * 1e9 / (double)rounds;
}

/* The seconds that this many rounds take. */
static double time_row(struct worker *worker, void (*round)(struct worker *), unsigned long rounds)
{
    double begin = now();
    for (unsigned long i = 0; i < rounds; i++)
        round(worker);
    return now() - begin;
}

/* The nanoseconds that a round takes in the best row of them. */
static double measure_alone(struct worker *worker, void (*round)(struct worker *))
{
    double first = time_row(worker, round, 1);
    unsigned long rounds = first < ROW_SECONDS ? (unsigned long)(ROW_SECONDS / first) : 1;
    double best = first * (double)rounds;
    for (double begin = now(); now() - begin < ROUND_SECONDS;) {
        double time = time_row(worker, round, rounds);
        best = time < best ? time : best;
    }
    return best * 1e9 / (double)rounds;
}

/* The longest that a thread waits for a session's info, in nanoseconds, while another digests
 * messages of 1 MiB without a pause. */
static double longest_wait(struct worker *workers)
{
    struct worker *digester = &workers[1];
    double longest = 0;
    double begin = now();
    stop = false;
    digester->round = digest_of_1_mib;
    pthread_create(&digester->thread, NULL, work, digester);
    for (double before = begin; before - begin < WAIT_SECONDS;) {
        session_info(&workers[0]);
        double after = now();
        longest = after - before > longest ? after - before : longest;
        before = after;
    }
    stop = true;
    pthread_join(digester->thread, NULL);
    return longest * 1e9;
}

/* ---- The module */

static void load(const char *path, char *parameters)
{
    CK_C_INITIALIZE_ARGS arguments = {.flags = CKF_OS_LOCKING_OK};
    CK_C_GetFunctionList get_function_list;
    void *library = dlopen(path, RTLD_NOW | RTLD_LOCAL);
    if (library == NULL) {
        fprintf(stderr, "module: %s\n", dlerror());
        exit(1);
    }
    *(void **)&get_function_list = dlsym(library, "C_GetFunctionList");
    expect(get_function_list(&token), "C_GetFunctionList");
    arguments.LibraryParameters = (void *)parameters;
    expect(token->C_Initialize(&arguments), "C_Initialize");
}

static void choose_slot(bool initialize)
{
    CK_UTF8CHAR label_text[32];
    CK_SLOT_ID slots[8];
    CK_ULONG count = 8;
    expect(token->C_GetSlotList(CK_TRUE, slots, &count), "C_GetSlotList");
    slot = slots[0];
    memset(label_text, ' ', sizeof label_text);
    memcpy(label_text, "bench", 5);
    if (initialize)
        expect(token->C_InitToken(slot, (CK_UTF8CHAR_PTR) "12345678", 8, label_text),
               "C_InitToken");
    expect(token->C_GetSlotList(CK_TRUE, slots, &count), "C_GetSlotList");
    slot = slots[0];
}

static void create_objects(CK_SESSION_HANDLE session)
{
    char text[32];
    for (unsigned i = 0; i < OBJECTS; i++) {
        snprintf(text, sizeof text, "object %u", i);
        create_data(session, text);
    }
}

struct named_round {
    const char *name;
    void (*round)(struct worker *);
};

/* The few ones stand first. */
static const struct named_round rounds[] = {
    {"session info", session_info},
    {"token info", token_info},
    {"open and close", open_and_close},
    {"digest of 64 bytes", digest_of_64_bytes},
    {"label", label},
    {"create and destroy", create_and_destroy},
    {"signature of 64 bytes", sign_64_bytes},
    {"digest of 64 KiB", digest_of_64_kib},
    {"digest of 1 MiB", digest_of_1_mib},
};

enum { FEW_ROUNDS = 4, ALL_ROUNDS = sizeof rounds / sizeof *rounds };

static void print_round(const struct named_round *named, struct worker *workers, unsigned threads)
{
    double time = threads == 1 ? measure_alone(workers, named->round)
                               : measure(workers, threads, named->round);
    printf("%s: %.0f\n", named->name, time);
}

static void measure_few(struct worker *worker)
{
    worker->session = open_session();
    for (int i = 0; i < FEW_ROUNDS; i++)
        print_round(&rounds[i], worker, 1);
}

static void measure_all(struct worker *workers, unsigned threads)
{
    static const struct named_round search = {"find one of 10,000", find_one};
    for (unsigned i = 0; i < threads; i++) {
        workers[i].session = open_session();
        workers[i].object = create_data(workers[i].session, "an object");
        workers[i].key = create_key(workers[i].session);
    }
    for (int i = 0; i < ALL_ROUNDS; i++)
        print_round(&rounds[i], workers, threads);
    if (threads > 1)
        printf("longest wait beside digests of 1 MiB: %.0f\n", longest_wait(workers));
    create_objects(workers[0].session);
    print_round(&search, workers, threads);
}

int main(int count, char **arguments)
{
    static struct worker workers[MOST_THREADS];
    bool is_few = count == 3 && strcmp(arguments[2], "few") == 0;
    unsigned threads = is_few ? 1 : count > 2 ? (unsigned)atoi(arguments[2]) : 0;
    if (threads < 1 || threads > MOST_THREADS) {
        fprintf(stderr, "module: usage: module MODULE THREADS [PARAMETERS] or module MODULE few\n");
        return 2;
    }
    load(arguments[1], count > 3 ? arguments[3] : NULL);
    choose_slot(count <= 3);
    if (is_few)
        measure_few(workers);
    else
        measure_all(workers, threads);
    expect(token->C_Finalize(NULL), "C_Finalize");
    return 0;
}
