"""Tests of the Python module; host/python/run-tests runs them."""

import pathlib

HOST = pathlib.Path(__file__).resolve().parents[2]
SAMPLES = HOST.parent / "samples"


def sample(name: str) -> bytes:
    return (SAMPLES / name).read_bytes()
