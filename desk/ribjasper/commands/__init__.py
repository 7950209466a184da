"""The commands of the desk, a module each."""
