"""For the tools: how one ends, by what it says or by its fault."""
import sys

import streams  # (before anything is read or printed)
from audit import Refused, put
from faults import tell


def ends(tool, work, meanings=None, words=False):
    """Prints what the work says, and returns the status. At a terminal, or if words are asked for, a fault is explained."""
    try:
        said = work()
    except Refused as fault:
        return tell(tool, fault, meanings or {}, words)
    except KeyboardInterrupt:
        print(f'{tool}: Stopped', file=sys.stderr)
        return 130
    return put(said, tool)
