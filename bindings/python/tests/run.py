"""Runs the tests of the module bucket found by PYTHONPATH.

  run.py [NAME ..]    the files test_NAME.py, or all; prints a line, and what was skipped
"""

import os
import resource
import signal
import sys
import unittest

HERE = os.path.dirname(os.path.abspath(__file__))


def main():
    # A test that never ends, or takes all memory, fails. A sanitizer can't work with less memory.
    signal.alarm(int(os.environ.get("BUCKET_SECONDS", "600")))
    if "BUCKET_SANITIZED" not in os.environ:
        resource.setrlimit(resource.RLIMIT_AS, (4 << 30, 4 << 30))
    names = [f"test_{name}" for name in sys.argv[1:]]
    if not names:
        names = sorted(name[:-3] for name in os.listdir(HERE) if name.startswith("test_") and name.endswith(".py"))
    suite = unittest.defaultTestLoader.loadTestsFromNames(names)
    result = unittest.TextTestRunner(stream=sys.stderr, verbosity=0).run(suite)
    for reason in sorted({reason for _, reason in result.skipped}):
        print(f"left out: {reason}")
    if not result.wasSuccessful():
        sys.exit(1)
    print(f"{result.testsRun - len(result.skipped)} tests of the module bucket pass in Python {sys.version.split()[0]}")


main()
