"""What `tools/explain` and `tools/judge_many` share: the program, recordings, words, pictures and smaller traces."""
from __future__ import annotations

