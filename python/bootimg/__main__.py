"""`python3 -m bootimg COMMAND ..` writes what `bootimg COMMAND ..` writes."""

import sys

from bootimg import main

sys.exit(main())
