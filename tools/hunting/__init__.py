"""A search over seeds for a schedule in which something happens."""
