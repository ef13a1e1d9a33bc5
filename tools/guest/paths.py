"""Where the repository and its tools are. Each program of this folder imports this before the modules of tools/lib,
which are found from then on."""
import os
import sys

HERE = os.path.dirname(os.path.realpath(__file__))
TOOLS = os.path.dirname(HERE)
TOP = os.path.dirname(TOOLS)
LIVE = os.path.join(TOOLS, "live")
sys.path[:0] = [os.path.join(TOOLS, "lib"), HERE]
sys.dont_write_bytecode = True
