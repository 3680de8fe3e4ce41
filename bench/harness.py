"""The package tests/harness, so that the benchmarks import its modules by the same names as the tests."""

from pathlib import Path

__path__ = [str(Path(__file__).resolve().parents[1] / "tests" / "harness")]
