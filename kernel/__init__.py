"""What plays on io_uring, and compares its texts with the rules."""
