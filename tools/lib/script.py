"""What scripts do alike."""
import signal
import sys


def filters():
    """A reader of this script's output that goes away, as `head` does, ends it without a word."""
    signal.signal(signal.SIGPIPE, signal.SIG_DFL)


def helps(text):
    """`--help` among the words: writes the script's text, and ends it with status 0."""
    if "--help" in sys.argv[1:]:
        filters()
        print(text.strip())
        sys.exit(0)
