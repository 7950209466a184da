"""Commands for archivists."""
