"""The cases: sheets with the answers that they must have, and operations on fields."""
