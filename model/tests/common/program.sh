#!/bin/sh
# Stands for a program under test: does what a file beside the filing says.
. ./behaviour.sh
