"""What `tools/timeline` reads, and how it draws it."""
