"""What tools/import, tools/table and tools/plot are made of."""
