"""Tests of the Python module. `python3 -m tests`, from the folder python/, runs all of them."""
import pathlib

ROOT = pathlib.Path(__file__).resolve().parents[2]
EXAMPLES = ROOT / "examples"
COUNTING = EXAMPLES / "counting.image"
COUNTING_NAMES = EXAMPLES / "counting.names.json"
COUNT_FROM = EXAMPLES / "count-chr.image"
COUNT_FROM_NAMES = EXAMPLES / "count-chr.names.json"
PUPIL = EXAMPLES / "pupil.image"
PUPIL_NAMES = EXAMPLES / "pupil.names.json"
RETRY = EXAMPLES / "retry.image"
RETRY_NAMES = EXAMPLES / "retry.names.json"
