"""What ./test has proved on this machine: rt keeps it by the sum of all that it was made from, and c/build takes the libraries from there."""
import contextlib
import importlib.machinery
import importlib.util
import io
import os
import shutil

from trial import RT, rtlib


def script():
    """rt itself, as a module."""
    loader = importlib.machinery.SourceFileLoader('rt_itself', f'{RT}/rt')
    made = importlib.util.module_from_spec(importlib.util.spec_from_loader('rt_itself', loader))
    loader.exec_module(made)
    return made


def placed(name, top):
    """Puts the libraries below the crate of this name where commands look for them; answers whether ./test has proved all of them of the
    sources as they stand."""
    rt = script()
    rtlib.Crate.cuts_libraries = True
    rt.Crate.allowed = rt.handles_of(top)
    rtlib.Crate = rt.Crate
    crates = {it.name: it for it in rtlib.crates_below(top)}
    kept = rt.Kept(crates.values())
    kept.drop = lambda path: None
    with contextlib.redirect_stdout(io.StringIO()):
        for it in sorted((crates[it.name] for it in crates[name].below()), key=lambda it: len(it.below())):
            key = kept.key(it)
            if not os.path.isdir(kept.place(it, False, key)):
                return False
            shutil.rmtree(f'{it.folder}/out/rlib', ignore_errors=True)
            if not kept.give(it, False, key):
                return False
            kept.is_built(it)
    return True
