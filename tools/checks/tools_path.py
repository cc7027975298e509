"""Puts the folder of the tools on the path, so that a check finds their modules. It is imported before all of them."""

import os
import sys

TOOLS = os.path.dirname(os.path.dirname(os.path.realpath(__file__)))
TOP = os.path.dirname(TOOLS)
sys.path.append(TOOLS)
