"""The tree of a game file by its numbers of actions alone: after which action of which node each node comes.

It also takes files that `corr` refuses, whose tree is closed too early or too late.
"""
from collections import namedtuple

from corr_report import Bad

Step = namedtuple("Step", "parent action")  # actions count from 1


class Outline:
    """`steps` has for each node the step to it, None for the root; `extra` is the first node after the closed tree, None where none is;
    `missing` has the steps that no node follows, in the file's order."""

    def __init__(self, nodes):
        self.steps, self.extra = [], None
        self._listed = {}
        waiting = [None]
        for k, node in enumerate(nodes):
            if not waiting:
                self.extra = k
                break
            self.steps.append(waiting.pop())
            actions = len(self.listed(k, node)[0])
            waiting += [Step(k, action) for action in range(actions, 0, -1)]
        self.missing = waiting[::-1]

    def listed(self, k, node):
        """The actions and the probabilities of a node, of which the lists may stand at an earlier node of its set."""
        if node.kind == "t":
            return [], []
        key = node.player, node.number
        if not node.actions and key not in self._listed:
            raise Bad(f"node {k} of the game: its actions are listed nowhere before")
        if node.actions:
            self._listed.setdefault(key, (node.actions, node.probabilities))
        return (node.actions, node.probabilities) if node.actions else self._listed[key]
