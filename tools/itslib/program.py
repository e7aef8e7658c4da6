"""The folder of the repository, and the proved program."""

import os
import subprocess
from typing import Optional

TOP = os.path.dirname(os.path.dirname(os.path.dirname(os.path.abspath(__file__))))


def proved() -> Optional[str]:
    """The proved program, if it is there and newer than the sources."""
    done = subprocess.run([os.path.join(TOP, "tools", "proved")], stdin=subprocess.DEVNULL, stdout=subprocess.PIPE)
    return os.fsdecode(done.stdout).rstrip("\n") if done.returncode == 0 else None
