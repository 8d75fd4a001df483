"""What a tool of the repository says of itself."""
import signal
import sys


def tell(text):
    """Ends a tool with its text as the output, where it is asked for that alone. What reads it may stop early, as `head` does."""
    if sys.argv[1:] in (["--help"], ["-h"]):
        signal.signal(signal.SIGPIPE, signal.SIG_DFL)
        print(text.strip())
        sys.exit()
