"""What pip calls to install the package from this folder (PEP 517): bindings/python/wheel makes the wheel, for this
machine's processor. Where it can't, the installation ends with what it says."""

import platform
import subprocess
import sys
from pathlib import Path


def build_wheel(wheel_directory, config_settings=None, metadata_directory=None):
    """Builds the wheel. Its file's name."""
    wheel = Path(__file__).resolve().parent / "wheel"
    words = [sys.executable, wheel, "--processor", platform.machine(), wheel_directory]
    made = subprocess.run(words, stdout=subprocess.PIPE, text=True)
    if made.returncode != 0:
        sys.exit(1)
    return Path(made.stdout.strip()).name
