"""A session of the debugger by hand, over the program's own shell."""
