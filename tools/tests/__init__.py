"""Tests of the programs in tools/: python3 -m unittest discover -s tools -t tools."""
