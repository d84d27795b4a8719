# For the scripts that time whole commands in the room of scenes/; they read this file with their words, the first of which
# is a number of runs. It sets `programs` to the programs that the others name, or to the built program, and goes to a new
# folder that has the room's mesh and materials and is removed in the end.
here=$(cd "$(dirname "${BASH_SOURCE[0]}")/.." && pwd)
shift || true
programs=("$@")
[ ${#programs[@]} -gt 0 ] || programs=("$here/crates/lightcuts/out/lightcuts")
for at in "${!programs[@]}"; do
    programs[at]=$(realpath "${programs[at]}")
done
work=$(mktemp -d)
trap 'rm -rf "$work"' EXIT
cd "$work"
cp "$here/scenes/room.obj" "$here/scenes/room.mtl" .

# many_lights N: a light file of N points in the room, of the light of twenty points of intensity 1 in all
many_lights() {
    awk -v n="$1" 'BEGIN { for (i = 0; i < n; i++)
        printf "point %.4f %.4f %.4f %.4f %.4f %.4f\n", (i * 37 % 1009) / 180 - 2.8, 0.3 + (i * 29 % 997) / 400,
            (i * 53 % 1013) / 220 - 2.3, 20 / n, 17 / n, 12 / n }'
}
