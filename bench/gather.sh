# For benchmarks that build a program in a folder of its own: gather TOP WORK CRATE copies a crate with those below it, and the
# libraries that were built of them.
gather() {
    local top=$1 work=$2 name=$3 below
    if [ -d "$work/crates/$name" ]; then return; fi
    mkdir -p "$work/crates"
    tar -C "$top/crates" --exclude=out --exclude=must-fail -cf - "$name" | tar -C "$work/crates" -xf -
    if [ -d "$top/crates/$name/out/rlib" ]; then
        mkdir "$work/crates/$name/out"
        cp -a "$top/crates/$name/out/rlib" "$work/crates/$name/out"
    fi
    grep "^$name:" "$top/crates.txt" >>"$work/crates.txt"
    for below in $(sed -n "s/^$name://p" "$top/crates.txt"); do
        if [ -d "$top/crates/$below" ]; then gather "$top" "$work" "$below"; fi
    done
}
