"""A bar on a terminal, and nothing elsewhere."""

import sys
from typing import Any, Optional


class Progress:
    """How far a run is, with its rate and the time that is left."""

    def __init__(self, total: Optional[int], unit: str) -> None:
        """Without a total there is no bar."""
        is_shown = total is not None and sys.stderr is not None and sys.stderr.isatty()
        self._bar: Optional[Any] = _bar(total, unit) if is_shown else None

    def write(self, text: str, is_fault: bool = False) -> None:
        """Writes a text that ends with a line end, above the bar."""
        stream = sys.stderr if is_fault else sys.stdout
        if not text:
            return
        if self._bar is None:
            stream.write(text)
        else:
            self._bar.write(text, file=stream, end="")

    def step(self, count: int) -> None:
        if self._bar is not None:
            self._bar.update(count)

    def close(self) -> None:
        if self._bar is not None:
            self._bar.close()


def _bar(total: Optional[int], unit: str) -> Optional[Any]:
    try:
        from tqdm import tqdm
    except ImportError:
        return None
    tqdm.monitor_interval = 0  # Its thread would stand in the way of a fork.
    return tqdm(total=total, unit=f" {unit}", dynamic_ncols=True, leave=False)
