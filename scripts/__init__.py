"""The commands of make, and the modules that all folders share."""
