"""What is told of a text: an error or a warning at a place. Needs nothing beside Python."""
from __future__ import annotations

import dataclasses

from forec_text.loops import Note
from forec_text.tree import Place


@dataclasses.dataclass(frozen=True, slots=True)
class Finding:
    """An error or a warning: its place, the page of help, what it says, and other places. `rule` is the number of a broken rule; `told` is
    the program's line where the program told it, and nothing where it was found here."""
    place: Place
    page: str
    text: str
    notes: tuple[Note, ...] = ()
    rule: int | None = None
    is_error: bool = True
    told: str = ""

    @property
    def line(self) -> str:
        """The line of the program for this error."""
        if self.page == "long":
            return "refused long"
        return self.told or f"refused {self.place} {f'rule {self.rule}' if self.rule else self.page}"
