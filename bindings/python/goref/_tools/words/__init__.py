"""A module for each word: EXAMPLE, `add_arguments` and `run`."""
