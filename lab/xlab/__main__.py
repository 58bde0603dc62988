"""`python3 -m xlab` is `xlab`."""

import sys

from xlab.cli import main

sys.exit(main(sys.argv[1:]))
