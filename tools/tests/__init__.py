"""Tests of tools/sothvelm, which checks/tools runs."""
