"""Where things are, and the program that the tests run."""

import os
import sys

TOP = os.path.dirname(os.path.dirname(os.path.dirname(os.path.realpath(__file__))))
TOOLS, EXAMPLES = f"{TOP}/tools", f"{TOP}/examples"
# The program, if the tests that need it are to run.
PROGRAM = os.environ.get("PROGRAM")

sys.path[:0] = [f"{TOOLS}/lib", f"{TOP}/python"]
