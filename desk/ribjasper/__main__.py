"""`python3 -m ribjasper` is the desk too."""
import sys

from .main import main

if __name__ == "__main__":
    sys.exit(main())
