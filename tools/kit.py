"""The kit's rt as a module, for the tools beside this file."""
import importlib.machinery
import importlib.util
import sys

KIT = "/opt/rattle"


def load(top):
    """rt over the repository at `top`, which remembers what stands below each crate and does not walk there path by path."""
    sys.path.insert(0, f"{KIT}/bin")
    loader = importlib.machinery.SourceFileLoader("rt", f"{KIT}/bin/rt")
    module = importlib.util.module_from_spec(importlib.util.spec_from_loader("rt", loader))
    sys.modules["rt"] = module
    loader.exec_module(module)

    def below(crate):
        if "all_below" not in crate.__dict__:
            found = {}
            for dep in crate.deps:
                found.update({it.name: it for it in [*dep.below(), dep]})
            crate.all_below = list(found.values())
        return list(crate.all_below)

    module.rtlib.Crate.below = module.Crate.below = below
    module.Crate.allowed = module.handles_of(top)
    return module
