"""What is certain of each message's delay: the ends that `interval` replied, or, where it was not asked, ends between which those lie."""

from timeline import Message, Timeline
from tracesync.numbers import Interval


class Delays:
    """Tells the delays of a timeline's messages."""

    def __init__(self, found: Timeline) -> None:
        self.rows = list(found.ends.values())
        by_source = {it.name: it.source_time for it in found.events if it.source_time}
        if by_source:
            self.rows.append(by_source)

    def around(self, it: Message) -> Interval:
        """Returns ends between which a delay is in each execution: those that are declared, and those that the times of its two events leave,
        since each chosen event and by the source, as `times` replied."""
        least, most = it.declared
        for row in self.rows:
            if it.send in row and it.receive in row:
                (early, late), (from_least, to_most) = row[it.send], row[it.receive]
                # (None is an infinite end; there are millions of messages, so no function is called for each end)
                if from_least is not None and late is not None and (least is None or from_least - late > least):
                    least = from_least - late
                if to_most is not None and early is not None and (most is None or to_most - early < most):
                    most = to_most - early
        return Interval(least, most)
