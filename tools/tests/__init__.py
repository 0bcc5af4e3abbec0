"""Tests of the tools that the gate checks with."""
