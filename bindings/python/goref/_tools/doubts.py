"""Whether a verdict hangs on a charset that was guessed."""

from typing import Optional, Union

import goref
from goref._tools.charset import readings
from goref._tools.records import Found, found_in, in_words


def doubt_of(found: Found) -> Optional[str]:
    """How the verdict on a game differs where its file is read in another charset than the one that was taken."""
    text = found.text
    if text.verdicts is None:
        others = [(name, found_in(found.path, other)) for name, other in readings(text.data, text)]
        text.verdicts = [(name, [one.verdict() for one in games]) for name, games in others]
    if not text.verdicts:
        return None
    said = found.verdict()
    for name, verdicts in text.verdicts:
        verdict = verdicts[found.number - 1] if found.number <= len(verdicts) else "no game"
        if verdict != said:
            return f"the verdict depends on the charset: it is `{_words(verdict)}` {name}; --charset settles it"
    return None


def _words(verdict: Union[goref.Verdict, str]) -> str:
    if isinstance(verdict, str):
        return verdict
    return in_words(*verdict)
