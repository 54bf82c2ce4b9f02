/*
 * Tests of the tests in C: the last one must pass, and each of the others must fail. The script run
 * looks whether their lines and the status say so.
 */
#include "support.h"

static void test_wrong_check(void) {
    CHECK(true);
    CHECK(false);
}

static void test_wrong_code(void) {
    EXPECT(CKR_OK, CKR_GENERAL_ERROR);
    EXPECT(CKR_OK, CKR_OK);
}

static void test_no_check(void) {
}

static void test_right_checks(void) {
    CHECK(true);
    EXPECT(CKR_OK, CKR_OK);
}

static const struct test tests[] = {
    {"a condition that isn't met", test_wrong_check},
    {"a code that isn't the expected one", test_wrong_code},
    {"no check", test_no_check},
    {"checks that are right", test_right_checks},
};

int main(void) {
    return run_tests("noticing", tests, sizeof tests / sizeof *tests);
}
