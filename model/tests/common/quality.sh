#!/bin/sh
# Stands for the program that settles, beside the one under test: does what a file beside the filing says.
. ./settling.sh
