"""What is measured and not judged."""
