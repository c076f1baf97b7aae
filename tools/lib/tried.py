"""Tests one after the other: each says on a line of its own what it tried, and the first that fails ends them."""


class Failed(Exception):
    """What is not as it should be."""


def run(name, tests, *arguments):
    """The status: 1 at the first that fails. Each test is given the arguments."""
    for test in tests:
        try:
            print(f"{name}, {test.__name__}: {test(*arguments)}", flush=True)
        except Failed as failed:
            print(f"{name}, {test.__name__}: FAILED: {failed}")
            return 1
    return 0
