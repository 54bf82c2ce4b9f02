/*
 * Calls C_Initialize of the module whose file is named. Writes whether this program has rights that
 * its user doesn't have, which are for journal_test.py to give, and the code of the call.
 */
#include <dlfcn.h>
#include <stdio.h>
#include <string.h>
#include <sys/auxv.h>

int main(int count, char **words) {
    void *library = count == 2 ? dlopen(words[1], RTLD_NOW | RTLD_LOCAL) : NULL;
    void *symbol = library == NULL ? NULL : dlsym(library, "C_Initialize");
    unsigned long (*initialize)(void *arguments);
    if (symbol == NULL) {
        fprintf(stderr, "rights MODULE: there is no module of this name\n");
        return 2;
    }
    memcpy(&initialize, &symbol, sizeof symbol);
    printf("%lu %lu\n", getauxval(AT_SECURE), initialize(NULL));
    return 0;
}
