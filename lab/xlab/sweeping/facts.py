"""What is to be known of a trace beside its rows."""

import hashlib
import json
import sys

from xlab import rowfiles


def of_trace(file: str) -> dict[str, object]:
    """The trace's instructions, and the SHA-256 of its file as it lies there."""
    with open(file, "rb") as opened:
        return {
            "file": file,
            "sha256": hashlib.file_digest(opened, "sha256").hexdigest(),
            "instructions": rowfiles.instructions(file),
        }


if __name__ == "__main__":
    print(json.dumps(of_trace(sys.argv[1])))
