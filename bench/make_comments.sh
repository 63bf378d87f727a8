#!/bin/sh
# Writes a script of 1,048,576 bytes, all of them comment lines.
awk 'BEGIN {
  line = "# A comment line of forty bytes, and more"
  for (left = 1048576; left > length(line); left -= length(line) + 1) print line
  for (rest = ""; length(rest) + 1 < left; ) rest = rest "#"
  print rest
}'
