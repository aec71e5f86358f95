"""Explains why `mcf` refuses an instance: see `man mcf_explain`.

This unproved Python finds the faults of an instance again. It compares the first fault with the
refusal that `mcfcheck` accepts."""
