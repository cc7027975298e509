"""A schedule that is played by hand, item by item, over one `friday play`."""
