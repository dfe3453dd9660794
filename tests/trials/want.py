"""What a trial wants of the daemon, and how long it waits for it."""
import os

PATIENCE = float(os.environ.get("PATIENCE", 60))  # seconds until an answer is missed


class Wrong(Exception):
    pass


def want(condition, what):
    if not condition:
        raise Wrong(what)
