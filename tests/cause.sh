#!/usr/bin/env bash
# Usage: cause.sh OUTDIR [PROGRAM]   (after simulator/build.sh OUTDIR)
# The tool that finds the step that cost an operation, target/bin/concur_cause unless another is named, as asked.sh tries it.
exec bash "$(dirname "$0")/asked.sh" cause 1000 "$@"
