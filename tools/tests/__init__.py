"""The tests of the tools; tools/test runs them."""
