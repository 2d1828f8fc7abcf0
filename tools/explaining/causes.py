"""Where to look in the editor: the causes that a verdict may have, the likeliest first.

Each cause has a name of its own, by which failures that look alike are put together."""
from __future__ import annotations

from .cause import Cause, lost_apart
from .causes_of_contents import of_contents
from .causes_of_order import of_position, of_refusal
from .evidence import Evidence
from .kinds import fitting

DOUBLED = ("Look at the recorder: each inserted element needs a name of its own, for ever. Two equal letters need two names. Each pasted "
           "element needs a new name; so does an element that comes back by undo, if it comes back as a new one.")
SAME_ID = ("If that name is the editor's own id, the editor made it twice: look at what makes ids. Usual causes: an id made from what can come again, such as a "
           "position or the length of the list; a clock that goes back when a change arrives, or at a restart; two replicas with the same number.")


def causes_of(evidence: Evidence, weak: bool = False) -> list:
    """The causes; with `weak` of an editor that promises the weak list specification alone, as those do that send positions."""
    find = {"contents": of_contents, "position": of_position, "refused": lambda told: [*of_refusal(told, weak), *lost_apart(told)], "doubled": lambda _: [Cause("doubled", DOUBLED), Cause("same id", SAME_ID)],
            "accepted": lambda _: []}
    return fitting(find[evidence.report["verdict"]](evidence), evidence.kind)
