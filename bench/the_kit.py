"""The kit's `rt` as a module, for scripts that do what its command line has no words for."""
import importlib.machinery, importlib.util, inspect, os, shutil, sys


def the_kit():
    """The kit's `rt`. Reading it runs nothing."""
    sys.dont_write_bytecode = True
    path = os.path.realpath(shutil.which('rt') or sys.exit('rt is not on the path'))
    loader = importlib.machinery.SourceFileLoader('rt_of_the_kit', path)
    made = importlib.util.module_from_spec(importlib.util.spec_from_loader(loader.name, loader))
    sys.modules[loader.name] = made
    loader.exec_module(made)
    return made


def crates_of(rt, top):
    """All crates of the tree, as the kit's gate sees them."""
    rt.Crate.allowed = rt.handles_of(top)
    if len(inspect.signature(rt.crates_of).parameters) == 1:
        return rt.crates_of(top)
    # The call of a gate that keeps nothing sets aside what stands in `out/`, too.
    rt.rtlib.Crate = rt.Crate
    return rt.rtlib.crates_below(top)
