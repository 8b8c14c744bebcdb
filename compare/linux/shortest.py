"""Cuts a script that leads to a difference down to the fewest commands that still lead to one."""

from collections.abc import Callable

from linux.calls import Command
from linux.comparison import Found

# The first difference of a script, if it has one.
Run = Callable[[list[Command]], Found | None]


def shortest(found: Found, run: Run) -> Found:
    """Takes out whole snapshots and then commands, as long as something can be taken out."""
    while True:
        length = len(found.script)
        found = _without_commands(_without_snapshots(found, run), run)
        if len(found.script) == length:
            return found


def _without_snapshots(found: Found, run: Run) -> Found:
    """Takes snapshots out of chains, the last ones first, or else joins them with the one that stands on them."""
    for name in reversed([command["name"] for command in found.script if command["do"] == "commit"]):
        found = run(_without_snapshot(found.script, name)) or run(_joined(found.script, name)) or found
    return found


def _without_snapshot(script: list[Command], name: str) -> list[Command]:
    """A script without the snapshot that is committed by this name. What stands on it stands on its parent then."""
    key = _field(script, "key", do="commit", name=name)
    parent = _field(script, "parent", do="prepare", key=key)
    kept = [command for command in script if command.get("key") != key]
    return [command | {"parent": parent} if command.get("parent") == name else command for command in kept]


def _joined(script: list[Command], name: str) -> list[Command]:
    """A script in which a snapshot isn't committed, and the one that stands on it is the same one."""
    key = _field(script, "key", do="commit", name=name)
    next_key = _field(script, "key", do="prepare", parent=name)
    kept = [command for command in script if command.get("name") != name and command.get("parent") != name]
    return [command | {"key": key} if command.get("key") == next_key else command for command in kept]


def _field(script: list[Command], field: str, **wanted: str | None) -> str | None:
    """A field of the first command that has these others."""
    return next((command[field] for command in script if wanted.items() <= command.items()), None)


def _without_commands(found: Found, run: Run) -> Found:
    """Takes out as many commands at once as it can, then half as many, down to single ones: the algorithm ddmin of
    delta debugging (Zeller and Hildebrandt, 2002). The first command opens the store, and stays."""
    size = len(found.script) // 2
    while size > 0:
        start = len(found.script) - size
        while start > 0:
            found = run(found.script[:start] + found.script[start + size :]) or found
            start = min(start, len(found.script)) - size
        size //= 2
    return found
