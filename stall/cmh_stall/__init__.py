"""What stands behind cmh-dump, cmh-explain and cmh-stall. Nothing here is proved: proved is the verdict on a dump."""
VERSION = "1.2.0"  # that of the program that they come with
