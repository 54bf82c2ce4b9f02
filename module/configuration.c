/*
 * The environment variables that configure the library, and its lines on standard error.
 */
#include "module.h"

#include <errno.h>
#include <stdarg.h>
#include <stdio.h>
#include <stdlib.h>
#include <string.h>
#include <sys/auxv.h>
#include <unistd.h>

static const char prefix[] = "OSPREYRACK_";
static const char script_variable[] = "OSPREYRACK_SCRIPT";
static const char journal_variable[] = "OSPREYRACK_JOURNAL";
static const char token_variable[] = "OSPREYRACK_TOKEN";
static const char seed_variable[] = "OSPREYRACK_SEED";
static const char cut_variable[] = "OSPREYRACK_CUT";

static const char *const all_variables[] = {
    script_variable, journal_variable, token_variable, seed_variable, cut_variable,
};

/* Whether a control character of two bytes in UTF-8 (U+0080 to U+009F) begins here. */
static bool is_long_control(const char *text) {
    return text[0] == '\xc2' && ((unsigned char)text[1] & 0xe0) == 0x80;
}

/* Values and files may have any bytes, and a message is one line that a terminal shows as it is. */
static void replace_control_bytes(char *text) {
    for (; *text != '\0'; text++) {
        if (is_long_control(text))
            text[0] = text[1] = '?';
        if ((unsigned char)*text < ' ' || *text == '\x7f')
            *text = '?';
    }
}

/* The line isn't on the stack, since a thread may have a small one: this is called under the
 * lock only, or by C_Initialize, before there are calls. */
bool report(const char *variable, const char *format, ...) {
    static char line[8192];
    va_list arguments;
    size_t start = (size_t)snprintf(line, sizeof line, "ospreyrack: %.99s: ", variable);
    va_start(arguments, format);
    vsnprintf(line + start, sizeof line - start - 1, format, arguments);
    va_end(arguments);
    replace_control_bytes(line);
    size_t length = strlen(line);
    line[length] = '\n';
    sigset_t before;
    block_write_signals(&before);
    int error = write_all(STDERR_FILENO, (const uint8_t *)line, length + 1);
    unblock_write_signals(&before, error);
    return false;
}

static bool is_known(const char *name, size_t length) {
    for (size_t i = 0; i < sizeof all_variables / sizeof *all_variables; i++) {
        if (strlen(all_variables[i]) == length && memcmp(name, all_variables[i], length) == 0)
            return true;
    }
    return false;
}

/* A mistyped variable would else do nothing, and nobody would be told. */
static bool check_names(void) {
    for (char **entry = environ; entry != NULL && *entry != NULL; entry++) {
        size_t length = strcspn(*entry, "=");
        if (strncmp(*entry, prefix, strlen(prefix)) != 0 || is_known(*entry, length))
            continue;
        enum { MOST_SHOWN = 60 };
        char name[MOST_SHOWN + 1];
        int shown = length < MOST_SHOWN ? (int)length : MOST_SHOWN;
        snprintf(name, sizeof name, "%.*s", shown, *entry);
        return report(name, "there is no such variable");
    }
    return true;
}

/* The value of a variable, or NULL where it isn't set. */
static bool read_variable(const char *variable, const char **value) {
    *value = secure_getenv(variable);
    return *value == NULL || **value != '\0' || report(variable, "the value is empty");
}

static bool read_cut(void) {
    const char *value;
    if (!read_variable(cut_variable, &value))
        return false;
    library.cuts_journal = value == NULL || strcmp(value, "yes") == 0;
    return library.cuts_journal || strcmp(value, "no") == 0
        || report(cut_variable, "the value is yes or no, and not %s", value);
}

static bool read_seed(void) {
    const char *value;
    if (!read_variable(seed_variable, &value))
        return false;
    if (value == NULL)
        return true;
    errno = 0;
    library.seed = strtoull(value, NULL, 10);
    if (strspn(value, "0123456789") != strlen(value) || errno != 0)
        return report(seed_variable, "the value is a decimal number below 2^64, and not %s", value);
    library.has_seed = true;
    return true;
}

/* Adds the number that stands in place of a %p or a %n, or else one byte of the path. Answers how
 * many bytes of the path that took, or 0 without memory. */
static size_t expand_place(const char *path, unsigned long begun, struct buffer *expanded) {
    char number[24];
    if (path[0] != '%' || (path[1] != 'p' && path[1] != 'n'))
        return buffer_add(expanded, path, 1) ? 1 : 0;
    snprintf(number, sizeof number, "%lu", path[1] == 'p' ? (unsigned long)getpid() : begun);
    return buffer_add_text(expanded, number) ? 2 : 0;
}

/* Writes a path with the process's number in place of each %p, and in place of each %n how many
 * journals the process has begun, with this one. */
static bool expand_path(const char *path, struct buffer *expanded) {
    static unsigned long begun;
    begun++;
    while (*path != '\0') {
        size_t used = expand_place(path, begun, expanded);
        if (used == 0)
            return false;
        path += used;
    }
    return buffer_add(expanded, "", 1);
}

static bool open_new_journal(const char *path) {
    if (!open_journal(journal_variable, path))
        return false;
    if (library.journal.length > 0)
        return report(journal_variable, "%s: the file is there and isn't empty", path);
    return begin_file_text();
}

static bool open_expanded_journal(const char *path) {
    struct buffer expanded = {0};
    bool is_good = expand_path(path, &expanded)
        ? open_new_journal((const char *)expanded.bytes)
        : report(journal_variable, "there is no memory for the name");
    buffer_free(&expanded);
    return is_good;
}

/* Opens the token's file, and answers what stands in it. */
static bool open_token(const char *path, bool *is_new) {
    if (!open_journal(token_variable, path))
        return false;
    *is_new = is_new_file();
    return *is_new ? begin_file_text() : answer_journal(path) && close_sessions(token_variable);
}

/* The script, where there is one, is for a token that has no calls yet. */
static bool answer_files(struct source *script, const char *journal, const char *token) {
    bool is_new = true;
    if (journal != NULL && !open_expanded_journal(journal))
        return false;
    if (token != NULL && !open_token(token, &is_new))
        return false;
    if (script->file >= 0 && is_new
        && !(answer_lines(script) && close_sessions(script_variable)))
        return false;
    return write_first_journal();
}

/* The script is opened before a file is made for the journal: where one name is given for both by
 * mistake, the script isn't there. */
static bool open_files(const char *path, const char *journal, const char *token) {
    struct source script = {.file = -1, .variable = script_variable, .path = path};
    if (journal != NULL && token != NULL)
        return report(journal_variable, "OSPREYRACK_TOKEN is a journal: set only one of the two");
    if (path != NULL && !open_source(&script))
        return false;
    bool is_good = answer_files(&script, journal, token);
    if (script.file >= 0)
        close(script.file);
    return is_good;
}

bool configure(void) {
    const char *script;
    const char *journal;
    const char *token;
    if (getauxval(AT_SECURE) == 0 && !check_names())
        return false;
    bool is_good = read_variable(script_variable, &script)
        && read_variable(journal_variable, &journal) && read_variable(token_variable, &token)
        && read_cut() && read_seed() && open_files(script, journal, token);
    if (is_good && library.has_seed)
        report(seed_variable, "keys and random bytes follow from this number: for tests only");
    return is_good;
}
