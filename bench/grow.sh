#!/usr/bin/env bash
# What a further type of node costs the gate: `bench/grow.sh N` adds N synthetic types to a copy of the repository and proves it
# from nothing beside a copy without them. See bench/grow.py.
set -eu
exec python3 "$(dirname "$0")/grow.py" "$@"
