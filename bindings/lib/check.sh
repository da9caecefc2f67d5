#!/bin/sh
# Whether the committed libarena_cursor.a is what the sources give, byte for byte, over the libraries that `rt ci` left. Prints
# nothing if so.
exec "$(dirname "$0")/build.sh" --check arena_cursor
