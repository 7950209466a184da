"""Ribjasper's desk: commands for dumps and songs of the subcode of Compact Discs, and the same for programs and notebooks.

    import ribjasper
    dump = ribjasper.load("disc.sub")

Blocks, packs, frames and corrections come from the proved library. Names are loaded when they are first used; numpy is needed
only for `Survey.table` and `Player.array`. docs/API.md has examples."""
import importlib

# True for checkers of types. To import it from `typing` would take ten times as long as all the rest.
TYPE_CHECKING = False
if TYPE_CHECKING:
    from .api.dumps import Dump, Frame, convert, load, mend
    from .common.failures import Failure, Missing, Refusal
    from .common.planning import NoPlan, Plan, PlannedPicture, plan
    from .common.player import Player
    from .dumps.damages import Damage
    from .dumps.mending import Mended
    from .dumps.survey import Survey
    from .songs.song_files import read_song
    from .songs.songs import Line, Song, Syllable

# The version of the desk, as VERSION has it but without what marks a state between two releases.
__version__ = "1.13.1"
__all__ = [
    "Damage", "Dump", "Failure", "Frame", "Line", "Mended", "Missing", "NoPlan", "Plan", "PlannedPicture", "Player", "Refusal",
    "Song", "Survey", "Syllable", "convert", "load", "mend", "plan", "read_song",
]  # fmt: skip
# The module of each public name.
_PLACES = {
    **dict.fromkeys(("Dump", "Frame", "convert", "load", "mend"), "api.dumps"),
    **dict.fromkeys(("Failure", "Missing", "Refusal"), "common.failures"),
    **dict.fromkeys(("NoPlan", "Plan", "PlannedPicture", "plan"), "common.planning"),
    **dict.fromkeys(("Line", "Song", "Syllable"), "songs.songs"),
    "Damage": "dumps.damages",
    "Mended": "dumps.mending",
    "Player": "common.player",
    "Survey": "dumps.survey",
    "read_song": "songs.song_files",
}


# Checkers of types see only the names above.
if not TYPE_CHECKING:

    def __getattr__(name: str) -> object:
        """A public name, whose module is loaded now."""
        if name not in _PLACES:
            raise AttributeError(f"module {__name__!r} has no attribute {name!r}")
        found: object = getattr(importlib.import_module(f".{_PLACES[name]}", __name__), name)
        globals()[name] = found
        return found


def __dir__() -> list[str]:
    return sorted({*globals(), *__all__})
