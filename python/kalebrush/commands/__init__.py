"""The commands, a module each, with `add` for its words and `main` for its work."""
