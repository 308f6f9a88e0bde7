"""Makes the modules of crates/blobd/crashes available, which the tests of both programs share."""
import pathlib
import sys

BLOBD_FOLDER = pathlib.Path(__file__).resolve().parents[3] / "crates/blobd"
sys.path += [str(BLOBD_FOLDER), str(BLOBD_FOLDER / "crashes")]
sys.dont_write_bytecode = True

from kills import common_length, lose_power  # noqa: E402
from data_folder import FolderLog, build_shim, log_files  # noqa: E402
from room import counts  # noqa: E402


def log_of(path):
    """Returns the log in a folder of a registry."""
    return FolderLog(pathlib.Path(path))
