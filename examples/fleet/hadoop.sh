#!/usr/bin/env bash
# Copies one file of HDFS into a new schema, without a file on this machine.
#
#     hadoop.sh IN OUT SCHEMA
#
# OUT is there once it is whole; until then, and after a failure, a beginning of it may stand in OUT.part, which the next try replaces. The status of each of
# the three programs counts: a stream that ends too early, between two blocks, is a container too.
set -euo pipefail
hadoop fs -cat "$1" | "${AVRO:-avro}" pipe --reader "$3" | hadoop fs -put -f - "$2.part"
hadoop fs -mv "$2.part" "$2"
