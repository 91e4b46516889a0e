"""`python3 -m kalebrush`."""
import sys

from kalebrush.cli import main

sys.exit(main())
