# The README's worked example, its commands as written; and the array that USING shows, its tasks one after the other.
. "$(dirname "$0")/common.sh"
cd "$repository"
sed -n '/^## From a station/,/^## /p' README.md | grep '^    [a-z]' | sed 's/^    //' >tools/build/test/example/commands
cat tools/build/test/example/commands
[ "$(wc -l <tools/build/test/example/commands)" -ge 6 ]
sh -eux tools/build/test/example/commands
test-same target/example/ours.png
test-same docs/calls.png
[ "$(wc -c <docs/calls.png)" -lt 300000 ]
if cjpeg -version 2>&1 | grep -q 'version 2\.1\.5'; then
    cmp target/example/beside.png docs/calls.png
fi
cd tools/build/test/example
mkdir in
for n in 1 2 3 4 5 6 7; do
    jpeg 20 20 $n a.jpg -quality 50
    jpeg2sheet a.jpg -o "in/s $n.tsv" --iterations 2
done
for task in 0 1 2; do
    SHEET=sheet SLURM_ARRAY_TASK_ID=$task SLURM_ARRAY_TASK_COUNT=3 bash "$repository/tools/example/array.sbatch" in out
done
status 0 sheet batch in out
says ' 7 drawn, 0 refused, 0 not done; 7 of them done before'
echo "the README's $(wc -l <commands) commands, and an array of three tasks"
