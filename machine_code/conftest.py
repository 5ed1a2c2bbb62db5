"""The path of the modules that the tests of this folder share with those of CI."""

import sys
from pathlib import Path

sys.path.insert(0, str(Path(__file__).resolve().parents[1] / '.ci'))
import shared  # noqa: E402,F401 (which adds the folders of the definitions)
