"""The definitions of the crates: what each file declares and cites, and what a definition reaches."""
