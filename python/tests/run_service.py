"""Runs the service of examples/service over the library that the tests run over, with the service's own words."""
import sys

from support import TOP

sys.path.insert(0, str(TOP / "examples/service"))
from service import main

if __name__ == "__main__":
    sys.exit(main())
