#!/usr/bin/env bash
# Times the bounds of clumps of lights, and emit_top, in the proved program and in plain Rust: nanoseconds a call, the
# best of several runs.
set -eu
. "$(dirname "$0")/beside.sh"
beside bound "${1:-3000}" "${2:-15}"
