"""`rt`, which makes the sum of a crate's sources once.

    python3 tools/quick_rt.py check --jobs 1

`rt` makes that sum anew for each way that leads from a crate to another in crates.txt: 4,490 sums for roombox, which take minutes before its first
function is checked. Here each is kept. So nobody may change a source while it runs; the gate calls `rt` itself.

It reaches into the kit: it loads the kit's own module `rtlib`, and puts another method in the place of `Crate.stamp`. It would be unnecessary if `rt`
kept each sum while it runs.
"""

import importlib.machinery
import os
import runpy
import shutil
import sys

RT = os.path.realpath(shutil.which(os.environ.get("RT", "rt")))


class Loader(importlib.machinery.SourceFileLoader):
    """Loads the kit's own module, and has its crates keep their sums."""

    def exec_module(self, module):
        super().exec_module(module)
        if module.__name__ == "rtlib":
            made, sums = module.Crate.stamp, {}
            module.Crate.stamp = lambda crate: sums.get(crate.folder) or sums.setdefault(crate.folder, made(crate))


if __name__ == "__main__":
    importlib.machinery.SourceFileLoader = Loader
    sys.argv[0] = RT
    runpy.run_path(RT, run_name="__main__")
