"""aprs-net with a clock that runs so many times as fast: hurried.py RATE ARGUMENT.."""
import sys

from aprsbook_tools.cli import main
from aprsbook_tools.system.clock import CLOCK

CLOCK.rate = float(sys.argv.pop(1))
sys.exit(main())
