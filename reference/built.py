"""Where ./zaldrum puts the programs that it builds."""

from pathlib import Path

FOLDER = Path(__file__).resolve().parent.parent / "built"


def built(name: str) -> Path:
    """The program of this name that was built last; a path where there is nothing, if none was."""
    found = FOLDER.glob(f"{name}-*/{name}")
    return max(found, key=lambda program: program.stat().st_mtime, default=FOLDER / name)
