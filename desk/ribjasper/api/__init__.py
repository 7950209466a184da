"""What `import ribjasper` offers to programs and notebooks."""
