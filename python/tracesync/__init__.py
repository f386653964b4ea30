"""One timeline of captures and logs of many hosts, with exact answers: sessions of the program tracesync.

>>> from tracesync import Session
>>> with Session("examples/session/hosts.toml") as session:
...     added = [session.add(it, f"examples/session/{it}.csv") for it in ("web", "db")]
...     order, found = session.order("db#2", "web#2"), session.interval("db#2", "web#2")
>>> print(order, found.least_ns)
before 1799259993/100000

Times are whole attoseconds (1e-18 s, or 1e-9 ns), or fractions of ns where a name ends with `_ns`; an end without limit
is None. What goes wrong is a `TracesyncError`:

- `Refused`: a line was refused, with its number and words; all is as it was before it;
- `Contradiction`: what was added contradicts the declaration, with the certificate that shows it; `blame` says by how
  much what must be wider;
- `DeclarationRefused`, `NoProgram`, `Ended`: there is no session, or none any more.
"""

from .certificates import Certificate, Cycle, Proof, Step
from .errors import Contradiction, DeclarationRefused, Ended, NoProgram, Refused, TracesyncError
from .numbers import Interval
from .problems import Blame, Clock, Delay, Problem, StampBounds, Stamped, Widening
from .program import find_program
from .replies import Added, Order, Report
from .session import Session
from .timelines import Merge, MergedEvent, Times

__all__ = [
    "Added", "Blame", "Certificate", "Clock", "Contradiction", "Cycle", "DeclarationRefused", "Delay", "Ended",
    "Interval", "Merge", "MergedEvent", "NoProgram", "Order", "Problem", "Proof", "Refused", "Report", "Session",
    "StampBounds", "Stamped", "Step", "Times", "TracesyncError", "Widening", "find_program",
]  # fmt: skip
