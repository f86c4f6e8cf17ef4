"""`python -m markdown_inline`: `python -m provedown` by its former name."""
import sys

from provedown.__main__ import main

if __name__ == "__main__":
    sys.exit(main())
