"""A group that is played: one `friday play`, and what its events tell."""
