#!/bin/sh
# code.sh FILE [PREFIX]: the bytes of code, constants and variables in an object or archive, and the names that it leaves for the host to bring. PREFIX
# stands before the names of the tools for another processor, as in arm-none-eabi-size.
set -eu
"${2-}size" -A "$1" | awk '
    $1 ~ /^\.text/ { text += $2 }
    $1 ~ /^\.rodata/ { constants += $2 }
    $1 ~ /^\.(data|bss)/ { variables += $2 }
    END { printf "%d bytes of code, %d of constants, %d of variables\n", text, constants, variables }'
echo "from the host: $("${2-}nm" -u "$1" | awk '$1 == "U" { printf "%s%s", between, $2; between = ", " }')"
