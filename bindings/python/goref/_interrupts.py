"""Interrupts that another exception hides."""

from typing import List, Optional


def interrupt_behind(why: BaseException) -> Optional[KeyboardInterrupt]:
    """The interrupt that an exception came of, if it came of one.

    Up to 3.11 Python raises a RuntimeError in its place, if it comes while a class is made.
    """
    seen: List[BaseException] = []
    left: List[Optional[BaseException]] = [why]
    while left:
        one = left.pop()
        if isinstance(one, KeyboardInterrupt):
            return one
        # What was looked at before is left, since an exception may be among its own causes.
        if one is not None and one not in seen:
            seen.append(one)
            left += [one.__context__, one.__cause__]
    return None
