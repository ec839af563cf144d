"""Where the tests find what they are about; `python/check` runs them."""

import os
from pathlib import Path

import lindypo

ROOT = Path(__file__).resolve().parent.parent.parent

# a folder that `cargo run -p checks --example cases` has filled
CASES = Path(os.environ["LINDYPO_CASES"])

# the module that is tested is the one that was meant
MODULE = Path(lindypo.__file__).resolve().parent
assert MODULE.parent == Path(os.environ["PYTHONPATH"]).resolve(), MODULE
