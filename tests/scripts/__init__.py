"""Tests of what is typed beside the two programs: ./build and its kin, tests/run, what shells complete, and the Debian package."""
