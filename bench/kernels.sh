# What the scripts beside it share that time the kernels: it builds the program cases, of which they are lines, for this machine's
# processor or for the sort that PROCESSOR has, goes to its folder, and gives them `least` and `kernel`. To be sourced.
. "$(dirname "${BASH_SOURCE[0]}")/least.sh"
cd "$(dirname "${BASH_SOURCE[0]}")/../crates/cases"
../../scripts/rt run --cpu "${PROCESSOR:-$(../../scripts/processor.sh)}" </dev/null >/dev/null 2>&1

# Runs the kernel of a word at a size, and prints its line.
kernel() {
    out/cases <<<"kernel $1 $2"
}
