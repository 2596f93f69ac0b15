"""`python3 -m umc` is `um`."""
import sys

from umc.cli import main

sys.exit(main())
