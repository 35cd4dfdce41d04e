"""The build of lostd from its sources, and the packaged program."""
