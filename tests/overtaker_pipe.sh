#!/usr/bin/env bash
# Usage: overtaker_pipe.sh [PROGRAM]
# The tool that names who overtook an operation, target/bin/concur_overtaker unless another is named, as asked_pipe.sh tries it.
exec bash "$(dirname "$0")/asked_pipe.sh" overtaker '2 4' '2 4' "$@"
