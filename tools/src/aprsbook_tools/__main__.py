"""`python3 -m aprsbook_tools` is `aprs-net`."""
import sys

from aprsbook_tools.cli import main

sys.exit(main())
