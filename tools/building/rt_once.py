"""Runs the kit's rt, and has it make the sum of each crate's files once. rt makes the sum of a crate anew for each way that
leads to it from the crate in hand: the upper crates have thousands of ways, and the sums took up to seven minutes there. A
run must be over sources that nobody edits meanwhile.

    python3 rt_once.py RT WORD..
"""
from __future__ import annotations

import functools
import importlib.machinery
import importlib.util
import os
import sys
from typing import Any, Callable


def once(method: Callable[[Any], Any]) -> Callable[[Any], Any]:
    """The method, whose result is kept with its object."""
    name = f"_{method.__name__}_made"

    @functools.wraps(method)
    def kept(self: Any) -> Any:
        if name not in self.__dict__:
            self.__dict__[name] = method(self)
        made = self.__dict__[name]
        return [*made] if isinstance(made, list) else made

    return kept


def main() -> int:
    """Does what rt does. A kit of another build is run as it is."""
    program = os.path.realpath(sys.argv[1])
    if not os.path.isfile(f"{os.path.dirname(program)}/rtlib.py"):
        os.execv(sys.argv[1], sys.argv[1:])
    loader = importlib.machinery.SourceFileLoader("rt", program)
    spec = importlib.util.spec_from_loader("rt", loader)
    assert spec is not None
    rt = importlib.util.module_from_spec(spec)
    sys.modules["rt"] = rt
    loader.exec_module(rt)
    for name in ("stamp", "below"):
        setattr(rt.rtlib.Crate, name, once(getattr(rt.rtlib.Crate, name)))
    sys.argv = sys.argv[1:]
    return int(rt.main(sys.argv[1:]) or 0)


if __name__ == "__main__":
    sys.exit(main())
