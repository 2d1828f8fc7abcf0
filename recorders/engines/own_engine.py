#!/usr/bin/env python3
"""own_engine.py MODULE: an engine of your own, recorded. Run it by record.py; it reads plans and writes traces.

MODULE is the path of a Python file with a class `Engine`, of which each replica has one:

    Engine(replica)           replica counts from 0
    names()                   the list's names, in its order
    insert(name, position)    the user inserts; answers the message for the other replicas
    delete(name)              the user deletes; answers the message
    apply(message)            the message of another replica has arrived

Messages arrive in an order that is causal, each once at each replica. list_crdt.py has such a class."""
import importlib.util
import sys
from pathlib import Path

from list_crdt import record_plans

CALLS = ["names", "insert", "delete", "apply"]


def fail(words: str) -> None:
    print(words, file=sys.stderr)
    sys.exit(2)


def engine_of(path: str) -> type:
    """The module's class; a line on standard error where it can't be had."""
    sys.path.insert(0, str(Path(path).resolve().parent))
    try:
        spec = importlib.util.spec_from_file_location("own_engine_module", path)
        module = importlib.util.module_from_spec(spec)
        spec.loader.exec_module(module)
    except (Exception, SystemExit) as error:  # whatever the module does
        fail(f"{path} can't be loaded: {type(error).__name__}: {str(error).partition(chr(10))[0]}")
    engine = getattr(module, "Engine", None)
    if not isinstance(engine, type):
        fail(f"{path} has no class Engine")
    missing = [call for call in CALLS if not callable(getattr(engine, call, None))]
    if missing:
        fail(f"Engine of {path} has no {', '.join(missing)}")
    return engine


if __name__ == "__main__":
    if len(sys.argv) != 2:
        fail("usage: own_engine.py MODULE")
    answers, sys.stdout = sys.stdout, sys.stderr  # so that the engine may print
    record_plans(engine_of(sys.argv[1]), answers)
