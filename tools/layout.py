"""The layout of the kit's formatter, `rt fmt`."""

import os
import shutil
import subprocess
import tempfile


class NoLayout(Exception):
    """Says why a text has no layout."""


def formatter():
    """The formatter, which is in the kit's folder of `rt`."""
    rt = shutil.which("rt")
    path = os.path.join(os.path.dirname(os.path.realpath(rt)), "rattle") if rt else ""
    if not os.path.exists(path):
        raise NoLayout("the kit's formatter `rattle` is not found beside `rt`")
    return path


def layout(text):
    """The text of a .rt file, as the formatter writes it."""
    with tempfile.TemporaryDirectory(prefix="layout-") as folder:
        path = os.path.join(folder, "text.rt")
        with open(path, "w", encoding="utf-8") as file:
            file.write(text)
        done = subprocess.run([formatter(), "fmt", "--write", path], capture_output=True, text=True, check=False)
        if done.returncode:
            said = (done.stderr + done.stdout).strip().removeprefix(f"{path}: ")
            raise NoLayout(f"the formatter refuses what is printed: {said}")
        with open(path, encoding="utf-8") as file:
            return file.read()
