"""Pictures: colours, rasters, letters, images and charts."""
