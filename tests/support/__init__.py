"""What the tests are made with. Test modules import from here and from the oracle, and never one another."""

from pathlib import Path

ROOT = Path(__file__).resolve().parents[2]
