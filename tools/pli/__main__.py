"""`python3 tools/pli`, which bin/pli runs."""
import sys

try:
    from main import main

    sys.exit(main(sys.argv[1:]))
except KeyboardInterrupt:
    sys.exit(130)
