#!/usr/bin/env bash
# Usage: overtaker.sh OUTDIR [PROGRAM]   (after simulator/build.sh OUTDIR)
# The tool that names who overtook an operation, target/bin/concur_overtaker unless another is named, as asked.sh tries it.
exec bash "$(dirname "$0")/asked.sh" overtaker 400 "$@"
