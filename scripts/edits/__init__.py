"""Edits that must fail, judged in groups: what `scripts/edits.py` stands on."""
