"""The stubs: mypy accepts them and a typed program, and they declare what the module has."""

import ast
import os
import shutil
import subprocess
import sys
import unittest

import bucket

HERE = os.path.dirname(os.path.abspath(__file__))
FOLDER = os.path.dirname(os.path.abspath(bucket.__file__))
# Attributes that a type inherits from `type`, or in Python 3.11 from object.
OF_EACH = set(dir(object)) | {"__slotnames__", "__module__", "__doc__", "__weakref__", "__getstate__", "__reduce__", "__dict__"}


class Types(unittest.TestCase):
    @unittest.skipIf(shutil.which("mypy", path=os.environ.get("PATH", "") + ":/usr/bin") is None, "types, since there is no mypy")
    def test_mypy_takes_the_stubs_and_a_program(self):
        mypy = shutil.which("mypy", path=os.environ.get("PATH", "") + ":/usr/bin")
        command = [mypy, "--strict", "--python-version", "3.10", "--cache-dir", os.devnull, os.path.join(HERE, "typed.py")]
        environment = {**os.environ, "MYPYPATH": os.path.dirname(FOLDER)}
        environment.pop("PYTHONPATH", None)
        run = subprocess.run(command, env=environment, capture_output=True, text=True, check=False)
        self.assertEqual((run.returncode, run.stderr), (0, ""), run.stdout)

    def test_the_program_runs(self):
        run = subprocess.run([sys.executable, os.path.join(HERE, "typed.py")], capture_output=True, text=True, check=False)
        self.assertEqual((run.returncode, run.stderr), (0, ""))

    def test_the_stubs_name_what_the_module_has(self):
        with open(os.path.join(FOLDER, "__init__.pyi"), encoding="utf-8") as file:
            stub = ast.parse(file.read())
        classes = {item.name: item for item in stub.body if isinstance(item, ast.ClassDef)}
        for name in "Map", "Set", "Cache":
            items = classes[name].body
            named = {item.name for item in items if isinstance(item, ast.FunctionDef)}
            named |= {item.target.id for item in items if isinstance(item, ast.AnnAssign)}
            here = set(vars(getattr(bucket, name))) - OF_EACH
            inherited = {"update"} if name != "Set" else set()
            self.assertEqual(here - named, inherited, name)
            self.assertEqual({one for one in named if not hasattr(getattr(bucket, name), one)}, set(), name)
        self.assertTrue(os.path.exists(os.path.join(FOLDER, "py.typed")))
        self.assertEqual(sorted(bucket.__all__), ["Cache", "CacheInfo", "Map", "Set", "seeded"])
        self.assertRegex(bucket.__version__, r"^\d+\.\d+\.\d+$")

    def test_each_call_says_what_it_does(self):
        for kind in bucket.Map, bucket.Set, bucket.Cache, type(iter(bucket.Set())), type(bucket.Map().keys()):
            self.assertTrue(kind.__doc__)
            for name, member in vars(kind).items():
                if callable(member) and not name.startswith("__"):
                    self.assertGreater(len(member.__doc__), 10, name)
        self.assertTrue(bucket.__doc__ and bucket.seeded.__doc__)


if __name__ == "__main__":
    unittest.main()
