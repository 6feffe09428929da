"""The reader of OpenQASM 2.0 that the Python module carries, `python/qroute/qasm.py`, under the name that tools call it by."""

import os
import sys

sys.path.insert(0, os.path.join(os.path.dirname(os.path.realpath(__file__)), "../../python"))
import qroute.qasm

sys.modules[__name__] = qroute.qasm
