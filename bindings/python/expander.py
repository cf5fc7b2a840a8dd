"""The name that the module `filgordd` had first. It stays for one version."""

import os
import warnings

# What names the shared library had another name, too.
if "EXPANDER_LIBRARY" in os.environ:
    os.environ.setdefault("FILGORDD_LIBRARY", os.environ["EXPANDER_LIBRARY"])

from filgordd import *  # noqa: E402, F403
from filgordd import __all__  # noqa: E402, F401

warnings.warn("the module expander is now filgordd", DeprecationWarning, stacklevel=2)
