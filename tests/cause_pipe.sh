#!/usr/bin/env bash
# Usage: cause_pipe.sh [PROGRAM]
# The tool that finds the step that cost an operation, target/bin/concur_cause unless another is named, as asked_pipe.sh tries it.
exec bash "$(dirname "$0")/asked_pipe.sh" cause 3 35 "$@"
