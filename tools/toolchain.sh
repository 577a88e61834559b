# Finds the toolchain: on the path, else where it usually stands. To be read by `.`, which sets RT.
if command -v rt >/dev/null 2>&1; then
    RT=$(command -v rt)
elif [ -x /opt/rattle/bin/rt ]; then
    RT=/opt/rattle/bin/rt
else
    echo "spill: the command rt of the Rattle toolchain was not found: add the folder bin of the toolchain to PATH" >&2
    exit 127
fi
