#!/usr/bin/env bash
# Times the exact tests of segments and rays against triangles in the proved program and in plain Rust: nanoseconds for a
# triangle, the best of several runs.
set -eu
. "$(dirname "$0")/beside.sh"
beside geom "${1:-1000}" "${2:-15}"
