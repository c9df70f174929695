#!/usr/bin/env bash
# What one node's book replies and holds, by the equations of a step, is what the definitions say of all steps before: over
# random steps, in a second writing of both.
set -euo pipefail
cd "$(dirname "$0")/.."
python3 checks/books.py 500
