"""What keeps the repository: its build, its pages, its rules."""
