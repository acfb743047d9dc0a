"""A folder of originals, each under the key of its canonical file, as a debuginfo server has files under their build ID."""

from __future__ import annotations

import contextlib
import os
import secrets

from .accepted import Accepted


def path_of(folder: str, key: str) -> str:
    """Return where the original of a canonical file is."""
    return os.path.join(folder, key)


def store(folder: str, object: Accepted) -> None:
    """Copy an original into a folder, which is made if there is none. A process that reads it meanwhile finds the former one. Raises OSError."""
    path = path_of(folder, object.key)
    temporary = f"{path}.{secrets.token_hex(8)}"
    try:
        os.makedirs(folder, exist_ok=True)
        with open(temporary, "xb") as file:
            file.write(object.original)
        os.replace(temporary, path)
    except OSError as error:
        raise OSError(f"{folder}: {error.strerror}") from error
    finally:
        with contextlib.suppress(OSError):
            os.unlink(temporary)
