#!/usr/bin/env bash
# Tries the systems that aren't on every machine: installs what they need from Debian's packages where it is missing (as root), and says
# whether each still comes to its results. With names of systems behind it, these alone.
set -euo pipefail
cd "$(dirname "$0")/../.."
declare -A packages=(
  [postgresql]="postgresql python3-psycopg2"
  [hsqldb]="libhsqldb-java default-jdk-headless"
  [h2]="libh2-java default-jdk-headless"
  [derby]="libderby-java default-jdk-headless"
)

is_there() {
  case "$1" in
    postgresql) ls /usr/lib/postgresql/*/bin/initdb && /usr/bin/python3 -c "import psycopg2" ;;
    *) test -e "/usr/share/java/$1.jar" && command -v java ;;
  esac >/dev/null 2>&1
}

status=0
for system in ${@:-postgresql hsqldb h2 derby}; do
  # shellcheck disable=SC2086
  is_there "$system" || { apt-get update && apt-get install -y --no-install-recommends ${packages[$system]}; }
  /usr/bin/python3 tools/systems/run.py --check "$system" || status=1
done
exit $status
