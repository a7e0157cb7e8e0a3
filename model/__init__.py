"""Independent models of fixfiles, of its tables and of logs."""
