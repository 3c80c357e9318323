"""Looks at a session: `python3 -m khe ARCHIVE SOLUTION`."""

from . import main

if __name__ == "__main__":
    main()
