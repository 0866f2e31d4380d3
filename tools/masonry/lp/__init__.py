"""Linear programs, and certificates of short whole numbers."""
