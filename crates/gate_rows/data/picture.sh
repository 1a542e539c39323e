#!/bin/sh
# picture.sh WIDTH: draws the last line of a script that ends with rlgrid, WIDTH points in a row, the last row on top
tr -d '{}\n' | fold -w "$1" | tac | tr 01 '.#'
echo
