"""What is worked out of descriptions and tables: worst-case bounds, limits and margins, what became of each frame."""
