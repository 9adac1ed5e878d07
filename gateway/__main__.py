"""`python3 -m gateway CONFIG`."""
import sys

from gateway.app import main

sys.exit(main(sys.argv[1:]))
