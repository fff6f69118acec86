#!/usr/bin/env bash
# The independent program against the examples and general facts of papers 01 and 02, so that it can be trusted below.
set -euo pipefail
cd "$(dirname "$0")/.."
told=$(build/independent cases) || { echo "$told" >&2; exit 1; }
echo "cases: ${told#independent: }"
