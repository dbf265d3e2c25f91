"""Tests of the package metzurgo. `python3 bindings/python/tests` runs all of them."""
