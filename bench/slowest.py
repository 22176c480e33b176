#!/usr/bin/env python3
"""slowest.py FOLDER [COUNT]: the modules of a crate on which the prover was longest, by the times at which it wrote
what it had checked. FOLDER is the folder that `rattle check --jobs 1` was given as `--incremental`, empty before. So in a
crate's folder run `rm -rf out/incremental; rt check --jobs 1`, and give out/incremental; on a machine where no other
checkout kept work of the crate, since a check begins with that. A module whose name ends in `Lts` is a function's lifetimes: it takes long where
the function drops large values on its way out, say a document behind which another call may be refused."""
import os
import sys


def written(folder):
    """When each module was written, in order."""
    files = []
    for at, _, names in os.walk(folder):
        files += [(os.stat(os.path.join(at, name)).st_mtime, name) for name in names if name.endswith('.oantt')]
    return sorted(files)


def main():
    files = written(sys.argv[1])
    count = int(sys.argv[2]) if len(sys.argv) > 2 else 20
    took = [(after[0] - before[0], after[1]) for before, after in zip(files, files[1:])]
    for seconds, name in sorted(took, reverse=True)[:count]:
        print('%7.1f s  %s' % (seconds, name.removesuffix('.oantt').removesuffix('.decls')))


if __name__ == '__main__':
    main()
