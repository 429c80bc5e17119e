"""Runs all tests. Prints, last, "N passed, M failed"."""

import sys
import unittest


class Result(unittest.TextTestResult):
    """Counts the tests that passed: one of which several parts (subTest) fail is one that did not."""

    passed = 0

    def addSuccess(self, test):
        super().addSuccess(test)
        self.passed += 1


tests = unittest.defaultTestLoader.discover("tests", "*_test.py", ".")
result = unittest.TextTestRunner(stream=sys.stdout, verbosity=2, resultclass=Result).run(tests)
# What is wrong outside a test, as where a class is set up, and a run without tests are one failure.
wrong = [*result.failures, *result.errors, *result.skipped, *result.unexpectedSuccesses]
failed = result.testsRun - result.passed or int(bool(wrong) or result.passed == 0)
print(f"{result.passed} passed, {failed} failed")
sys.exit(failed > 0)
