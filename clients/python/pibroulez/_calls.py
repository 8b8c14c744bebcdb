"""What the commands of a store are made by."""
from __future__ import annotations

import json
from typing import Any, Mapping

_ENCODER = json.JSONEncoder(ensure_ascii=False, separators=(",", ":"))


def text_of(command: Mapping[str, object]) -> str:
    """The line of a command, without its line feed."""
    return _ENCODER.encode(command)


class Calls:
    """The calls of a store, each by its fields."""

    def request(self, command: Mapping[str, object]) -> dict[str, Any]:
        """The members of the answer to a command."""
        raise NotImplementedError

    def _call(self, do: str, session: int | None = None, **fields: object) -> dict[str, Any]:
        """Makes a call with the fields that aren't None."""
        given = {name: value for name, value in fields.items() if value is not None}
        return self.request({"do": do, **given} if session is None else {"do": do, "s": session, **given})

    def _ask(self, do: str, entry: bool, session: int | None, **fields: object) -> dict[str, Any]:
        """Asks a question, which makes an entry where one is wanted. Without one there is no session."""
        if entry:
            return self._call(do, session, **fields)
        if session is not None:
            raise TypeError(f"{do}: a session is given, and no entry is wanted")
        return self._call(do, None, quiet=True, **fields)
