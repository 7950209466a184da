"""Songs: lyrics formats, pages, timelines, scripts and sound."""
