"""What the tools of the map desk share. Python's standard library alone."""
