#!/usr/bin/env bash
# Judges a new schema against all versions of a subject in a schema registry: `registry-check.sh --help` says how.
exec python3 "$(dirname "$(realpath "${BASH_SOURCE[0]}")")/registry_check.py" "$@"
