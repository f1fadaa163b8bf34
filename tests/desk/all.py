"""Runs the tests of this folder, or of the modules named. What fails and what is left out is told; the last line is 'N passed, M failed'."""
import os
import sys
import time
import unittest

sys.dont_write_bytecode = True
here = os.path.dirname(os.path.abspath(__file__))
sys.path.insert(0, here)


class Result(unittest.TestResult):
    def startTestRun(self):
        self.passed, self.spent = 0, {}

    def startTest(self, test):
        super().startTest(test)
        self.began = time.time()

    def stopTest(self, test):
        module = type(test).__module__
        self.spent[module] = self.spent.get(module, 0) + time.time() - self.began
        super().stopTest(test)

    def addSuccess(self, test):
        self.passed += 1


def main(names):
    modules = names or sorted(name[:-3] for name in os.listdir(here) if name.startswith('test_'))
    result = Result()
    result.startTestRun()
    unittest.defaultTestLoader.loadTestsFromNames(modules).run(result)
    for test, trace in result.failures + result.errors:
        print(f'{test}\n{trace}')
    for reason in sorted({reason for _, reason in result.skipped}):
        print(f'left out: {reason}')
    if '-t' in sys.argv:
        print(', '.join(f'{module} {spent:.1f} s' for module, spent in result.spent.items()))
    failed = len(result.failures) + len(result.errors)
    print(f'{result.passed} passed, {failed} failed')
    return 1 if failed or not result.passed else 0


sys.exit(main([name for name in sys.argv[1:] if name != '-t']))
