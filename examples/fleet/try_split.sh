#!/usr/bin/env bash
# Compares split.py with `avro copy`, on files that split_cases.py makes: what stands in OUT, what is printed and the status. Then it spoils
# split.py in several ways, and each must be found.
#
#     try_split.sh [PROGRAM [COUNT]]
#
# PROGRAM is $AVRO where it is not given, and else avro on the PATH; COUNT is the number of files, 240. The last line says how much was tried;
# the status is 0 where all went as it must.
set -euo pipefail

here=$(cd "$(dirname "${BASH_SOURCE[0]}")" && pwd)
AVRO=$(realpath "$(command -v "${1:-${AVRO:-avro}}")")
export AVRO
exec python3 "$here/split_cases.py" "${2:-240}"
