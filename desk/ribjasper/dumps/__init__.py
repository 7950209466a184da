"""Dumps of discs: their forms, surveys, readings and texts."""
