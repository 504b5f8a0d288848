#!/usr/bin/env bash
# Compares what the proved replay answers, over the plain topic and over the fast one, with the worked rows and with a model
# of a topic, over lists that are drawn from a row of numbers, and over lists with a line that mostly stands for nothing.
set -euo pipefail
cd "$(dirname "$0")/.."
program=$PWD/crates/pulsar_replay/out/pulsar_replay

python3 rows/check.py "$program"
python3 bench/model/compare.py "$program" -lists 600 -events 60
python3 bench/model/compare.py "$program" -lists 100 -events 30 -first 10001 -spoil
