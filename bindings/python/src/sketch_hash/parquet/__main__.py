"""The command. Its functions are elsewhere, since other processes cannot import this module."""
import sys

from .command import main

if __name__ == "__main__":
    sys.exit(main())
