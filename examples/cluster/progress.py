"""When the outcomes of each node grew, by looking at the files that the feeds keep."""
import threading
import time

from fleet import Node

SAMPLE_SECONDS = 0.01


class Progress:
    """A thread that looks, for a `with`."""

    def __init__(self, nodes: list[Node]):
        self.nodes = nodes
        self.grown: list[list[float]] = [[time.monotonic()] for _ in nodes]
        self.over = threading.Event()
        self.thread = threading.Thread(target=self.look)

    def __enter__(self) -> "Progress":
        self.thread.start()
        return self

    def __exit__(self, *_fault: object) -> None:
        self.over.set()
        self.thread.join()

    def look(self) -> None:
        lengths = [0] * len(self.nodes)
        while not self.over.wait(SAMPLE_SECONDS):
            for place, node in enumerate(self.nodes):
                if (length := node.length()) > lengths[place]:
                    lengths[place] = length
                    self.grown[place].append(time.monotonic())

    def last(self) -> float:
        """When outcomes grew last, anywhere."""
        return max(grown[-1] for grown in self.grown)

    def standstill(self, nodes: list[Node], start: float, end: float) -> float:
        """The longest time without an outcome at one of these nodes, of those that reach into this while."""
        longest = 0.0
        for grown in (self.grown[self.nodes.index(node)] for node in nodes):
            gaps = [after - before for before, after in zip(grown, grown[1:]) if after > start and before < end]
            longest = max([longest, *gaps])
        return longest
