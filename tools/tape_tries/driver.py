"""How tries are run, for `tools/try_tapes` and `tools/try_live`: a line each, and how many passed."""
import importlib
import tempfile
import time

from . import running


def attempts(package, subjects):
    """The tries by name, in the order of the subjects."""
    for subject in subjects:
        module = importlib.import_module(f"{package}.{subject}")
        for name, attempt in list(vars(module).items()):
            if name.startswith("try_") and attempt.__module__ == module.__name__:
                yield name[4:], attempt


def run(package, subjects, words):
    """Runs all tries, or those whose name has one of the words; 1 if one failed."""
    passed, failed = 0, 0
    for name, attempt in attempts(package, subjects):
        if words and not any(word in name for word in words):
            continue
        began = time.monotonic()
        with tempfile.TemporaryDirectory() as room:
            try:
                told = attempt(room)
                passed += 1
                print(f"{name}: passed{f', {told}' if told else ''} ({time.monotonic() - began:.1f} s)", flush=True)
            except running.NotTried as missing:
                print(f"{name}: not tried, {missing} is not installed")
            except Exception as fault:
                failed += 1
                print(f"{name}: failed: {fault or repr(fault)}", flush=True)
    print(f"{passed} passed, {failed} failed")
    return 1 if failed else 0
