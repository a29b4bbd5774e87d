# Read by the scripts beside it, once `built` is the program's path in the repository and `build` says
# how it is made. It leaves the program in `program`, and in `folder` an empty folder for the run,
# which goes when the script ends.
program=$(cd "$(dirname "$0")/.." && pwd)/$built
[ -x "$program" ] || { echo "build the program first: $build" >&2; exit 1; }
folder=$(mktemp -d) || exit 1
trap 'rm -rf "$folder"' EXIT
