"""What `tools/site.py` is made of: readers of sources and definitions, and writers of pages."""
