"""Where a match tells its results and its faults."""

import sys

from goref._tools.faults import Fault, fault_of, leave_output, tell


class Output:
    """The standard output. Once that fails, what is to be printed goes to the standard error."""

    def __init__(self) -> None:
        self.has_failed = False

    def say(self, text: str) -> None:
        """Prints lines."""
        if not self.has_failed:
            try:
                print(text, flush=True)
                return
            except (OSError, ValueError) as why:
                self._give_up(why)
        try:
            print(text, file=sys.stderr, flush=True)
        except (OSError, ValueError, AttributeError):
            pass

    def _give_up(self, why: Exception) -> None:
        """Tells the fault, once, and leaves nothing that the end of the process would try to write again."""
        self.has_failed = True
        tell(str(fault_of("standard output", why) if isinstance(why, OSError) else Fault(f"standard output: {why}")))
        leave_output()
