"""From the states of a system to the tree of an answer. It names no system, and asks their registry alone."""
