#!/usr/bin/env bash
# Runs the programs and the independent model on generated filings, of electricity and of gas, and compares every byte that they print.
# usage: tests/filings.sh [COUNT [SEED]]; the filings of a seed are always the same.
set -euo pipefail
. "$(dirname "$0")/common.sh"
count=${1:-3000}
seed=${2:-1}
gas_program=$(built quality_gas)

comparison=(compare "$program")
filings_agree filings
wrong_model_is_noticed filings
gas_filings_agree "filings: gas filings read as electricity's"

comparison=(--gas compare "$gas_program")
filings_agree "filings: gas"
wrong_model_is_noticed "filings: gas"
