#!/usr/bin/env bash
# Times isqrt, scaled and cos16 in the proved program and in plain Rust: nanoseconds a call, the best of several runs.
set -eu
. "$(dirname "$0")/beside.sh"
beside terms "${1:-3000}" "${2:-15}"
