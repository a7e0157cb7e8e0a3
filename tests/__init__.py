"""The checks, and what they compare with."""
