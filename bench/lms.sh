#!/usr/bin/env bash
# How many times as long the calls of LMS take as the SHA-256 blocks in them, hashed alone in the same run: on the processor that
# programs are built for, and then, without goals, with AVX2.
set -eu
cd "$(dirname "$0")/../crates/bench"
rt run -- lms
echo "With AVX2:"
rt run --cpu=x86-64-v3 -- lms | sed 's/ (goal: [^)]*)//'
