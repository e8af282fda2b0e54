"""Mistakes that the prover has to refuse, and what tries them."""
