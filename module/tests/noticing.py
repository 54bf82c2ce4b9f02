"""Tests of the tests in Python: the last one must pass, and each of the others must fail. The
script run looks whether their lines and the status say so.
"""
import sys

import support


def main():
    checks = support.Checks("noticing")
    checks.check(True, "a condition that is met")
    checks.check(False, "a condition that isn't met")
    checks.end("a condition that isn't met")
    checks.equal(1, 2, "what isn't equal")
    checks.equal(1, 1, "what is equal")
    checks.end("what isn't equal")
    support.audit(checks, "false", "a journal that isn't played")
    checks.end("a journal that isn't played")
    checks.end("no check")
    checks.check(True, "a condition that is met")
    checks.equal(1, 1, "what is equal")
    support.audit(checks, "true", "a journal that is played")
    checks.end("checks that are right")
    return checks.status()


if __name__ == "__main__":
    sys.exit(main())
