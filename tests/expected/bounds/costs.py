"""What instructions, raise steps and loads cost, as docs/costs.md says: `tools/rechecker` reads it."""
import os
import sys

sys.path.append(os.path.join(os.path.dirname(os.path.abspath(__file__)), '../../../tools'))
from rechecker.costs import COSTS, Costs, Timing  # noqa: E402, F401


def with_options(words):
    """the timing for which the words of a command ask"""
    names = {'--blocks': 'blocks', '--block-words': 'block_words', '--read': 'read', '--write': 'write'}
    return Timing(**{names[name]: int(value) for name, value in zip(words[::2], words[1::2])})
