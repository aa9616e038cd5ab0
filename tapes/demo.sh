#!/bin/sh
# demo.sh - proves and builds the program `tape`, and runs it on a shipped tape.
set -eu
cd "$(dirname "$0")/.."
sh host/build.sh tape
target/bin/tape < tapes/multicast.tape
