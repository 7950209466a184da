"""Commands for publishers."""
