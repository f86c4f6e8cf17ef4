"""The former name of `provedown`, for this version alone."""
import warnings

from provedown import *  # noqa: F403
from provedown import __all__, __version__  # noqa: F401

warnings.warn("the package markdown_inline is now provedown", DeprecationWarning, stacklevel=2)
