"""The OpenType Sanitizer, as Debian's opentype-sanitizer has it, asked about a face: a judgement of whole fonts from elsewhere."""
import pathlib
import subprocess

NEED = pathlib.Path(__file__).resolve().parent.parent / "need"


def install():
    """Sees to it that ots-sanitize is there."""
    subprocess.run([NEED, "ots-sanitize", "opentype-sanitizer"], check=True)


def fault(path, index):
    """What it finds wrong in a face of a file; empty where the face passes."""
    asked = subprocess.run(["ots-sanitize", path, "/dev/null", str(index)], capture_output=True, text=True, errors="replace", check=False)
    if asked.returncode == 0:
        return ""
    return next((line for line in asked.stderr.splitlines() if line.startswith("ERROR")), f"exit status {asked.returncode}")
