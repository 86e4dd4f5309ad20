"""The command `source` of ./sparrow: analyses C files as they stand in their own tree."""

import os
import sys

# Python doesn't look for modules beside a file that it runs with -I.
sys.path.insert(0, os.path.dirname(os.path.abspath(__file__)))

from driver.command import main  # noqa: E402

sys.exit(main(sys.argv[1:]))
