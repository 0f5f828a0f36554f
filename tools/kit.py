"""Loads the Rattle kit's command `rt`, for scripts that build what it has no words for."""
import importlib.machinery
import importlib.util
import os
import shutil
import sys


def load():
    """Loads `rt` as a module, or ends where there is none."""
    sys.dont_write_bytecode = True
    path = shutil.which("rt")
    if not path:
        sys.exit(f'{sys.argv[0]}: there is no command rt, of the Rattle kit (README.md, "Try it")')
    loader = importlib.machinery.SourceFileLoader("rt", os.path.realpath(path))
    module = importlib.util.module_from_spec(importlib.util.spec_from_loader("rt", loader))
    sys.modules["rt"] = module
    loader.exec_module(module)
    module.rtlib.Crate = module.Crate
    return module
