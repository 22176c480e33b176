"""The reference model, which stands in a folder that a script is told: its modules can be
imported after `arguments`."""
import argparse
import sys


def parser(cases=None):
    """A parser with the model's folder, and for random cases a seed and their number, which is
    `cases` where none is told."""
    made = argparse.ArgumentParser()
    made.add_argument('--oracle', required=True)
    if cases is not None:
        made.add_argument('--seed', type=int, default=1)
        made.add_argument('--cases', type=int, default=cases)
    return made


def arguments(made):
    """What a script is told."""
    told = made.parse_args()
    sys.path.insert(0, told.oracle)
    return told


# what of the model's states the program has: the last one
REQUEST = 20
