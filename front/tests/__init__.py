"""Tests of the front: real runs of the command and of the program that rt has built. `python3 -m unittest` runs them all."""
