"""`python3 -m sothvelm`."""
from sothvelm.main import run

run()
