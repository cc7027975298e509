"""The debugger in an editor, by the Debug Adapter Protocol."""
