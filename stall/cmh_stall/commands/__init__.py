"""The commands `cmh-stall`, `cmh-dump` and `cmh-explain`."""
