"""What engines claim of the score of a game that is over. goref's score stands, whatever they say."""

from typing import NamedTuple, Optional

from goref._tools.engine import Engine, EngineFailed
from goref._tools.responses import in_short


class Claim(NamedTuple):
    """What an engine says."""

    score: Optional[str] = None
    """As it says it, for example `W+12.0`. None if it knows no `final_score`, or no score of this game."""
    failure: Optional[str] = None
    """What it did if it failed, to be read after its name."""


async def claim_of(engine: Engine, seconds: float) -> Claim:
    """The claim of an engine, which has some seconds for each of two lines."""
    try:
        known, _ = await engine.ask("known_command final_score", seconds)
        if known.text.lower() != "true":
            return Claim()
        response, _ = await engine.ask("final_score", seconds)
    except EngineFailed as why:
        return Claim(failure=f"{why} after the game")
    return Claim(in_short(response.text) if response.is_success else None)
