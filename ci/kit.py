"""The kit's own `rt`, as a module: how it reads an edit, checks and builds a crate, and where its tools are."""
import importlib.machinery
import importlib.util
import os
import shutil


def kit_command():
    """What the command `rt` runs."""
    path = os.path.realpath(shutil.which("rt"))
    loader = importlib.machinery.SourceFileLoader("rt", path)
    module = importlib.util.module_from_spec(importlib.util.spec_from_loader("rt", loader))
    loader.exec_module(module)
    return module


rt = kit_command()
