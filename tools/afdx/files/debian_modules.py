"""Python packages of Debian, which are for Debian's own interpreter. One of the same version that is not Debian's takes those
that are Python alone from there."""
import importlib
import sys
from types import ModuleType

FOLDER = "/usr/lib/python3/dist-packages"


def found(name: str) -> ModuleType | None:
    """A module, or None."""
    try:
        return importlib.import_module(name)
    except ImportError:
        if FOLDER in sys.path:
            return None
    # Behind all others, for what the module takes later too.
    sys.path.append(FOLDER)
    try:
        return importlib.import_module(name)
    except ImportError:
        sys.path.remove(FOLDER)
        return None


def needed(name: str, package: str) -> ModuleType:
    """A module, or a word on what to install."""
    module = found(name)
    if module is None:
        raise ImportError(f"{sys.executable} has no {name}: apt-get install -y {package}")
    return module
