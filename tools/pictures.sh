#!/bin/sh
# pictures.sh STAR FOLDER: draws the pictures of the documents, each by the console.
set -eu
star=$1 folder=$2
mkdir -p "$folder"
for name in yard yard-dear struck grant old stem; do
    # a plan that is refused is drawn too, with status 2
    "$star" draw "console/examples/$name.txt" >"$folder/$name.svg" 2>/dev/null || [ $? -lt 3 ]
done
