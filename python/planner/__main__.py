"""python3 -m planner"""
import sys

from .commandline import main

sys.exit(main())
