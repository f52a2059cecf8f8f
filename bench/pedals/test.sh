#!/bin/sh
# test.sh [COUNT [SEED]]: random pedals, 30 unless told: the proved block and the second program play the same, to every byte.
set -eu
cd "$(dirname "$0")/../.."
bench/build.sh
bench/pedals/same.sh "$(bench/native/linked.sh)" "${1:-30}" "${2:-1}" 1
