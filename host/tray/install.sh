#!/usr/bin/env bash
# Builds the tool and puts it into a folder: host/tray/install.sh [FOLDER]. The folder is target/bin if none is given.
set -euo pipefail
folder=$(realpath -m "${1:-$(dirname "$0")/../../target/bin}")
cd "$(dirname "$0")/../.."
. host/build.sh
find_archive >&2
build_rust tray
mkdir -p "$folder"
cp "$built/tray" "$folder/tray"
echo "$folder/tray"
