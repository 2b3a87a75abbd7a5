"""The tests of this program itself."""
