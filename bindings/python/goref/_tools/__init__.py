"""The words of the command goref-tools."""
