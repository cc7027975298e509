"""Pages of a recording. The folder `web` has what the browser runs."""
