"""A group under the debugger, asked and told in values: what a session by hand and an editor stand on. Nothing here prints.

Names of variables are those of the guests' kit, whose folder is put on the path for the modules of this one.
"""

import os
import sys

KIT = os.path.join(os.path.dirname(os.path.dirname(os.path.dirname(os.path.realpath(__file__)))), "guests")
sys.path.append(KIT)
