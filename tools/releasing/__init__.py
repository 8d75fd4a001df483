"""What tools/release makes of the proved program: an archive and a Debian package."""
import pathlib

FOLDER = pathlib.Path(__file__).resolve().parent
START, WRAPPER = FOLDER / "start.c", FOLDER / "cfpp"
TERMINAL = FOLDER.parent / "terminal"
