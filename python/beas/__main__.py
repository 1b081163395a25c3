"""python -m beas: the shell."""
import sys

from ._shell import main

sys.exit(main())
