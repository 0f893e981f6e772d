# shellcheck shell=sh disable=SC2013,SC2034,SC2154
# For the scripts of benches/, which source it in the repository: `archive_of NAME` makes the static
# library of the crate NAME, sets $archive to its folder and says which way it went. $work is a folder for
# what is made. On x86-64 the archive is the one that rt wrote (tools/staticlib). On Arm that one links into no
# program, since rt compiles for x86-64: there the module that rattle hands to clang is kept, turned to Arm and
# compiled by the same clang, so that what is timed comes from the proved crate but is no archive that rt wrote.

machine=$(uname -m)
kit=$(dirname "$(rt doc)")
toolchain=$kit/toolchain

# A toolchain folder whose clang keeps the module that it is handed as $work/module.bc.
keeping_toolchain() {
    mkdir -p "$work/keep/bin"
    ln -s "$toolchain/lib" "$work/keep/lib"
    for tool in ld.lld llvm-ar; do
        ln -s "$toolchain/bin/$tool" "$work/keep/bin/$tool"
    done
    cat >"$work/keep/bin/clang" <<END
#!/bin/sh
for word in "\$@"; do
    case \$word in *.bc) cp "\$word" "$work/module.bc" ;; esac
done
exec "$toolchain/bin/clang" "\$@"
END
    chmod +x "$work/keep/bin/clang"
}

# The module as text, without what names the processor that it was made for.
turned() {
    sed -e 's/^target triple.*/target triple = "aarch64-unknown-linux-gnu"/' \
        -e '/^target datalayout/d' \
        -e 's/"target-cpu"="[^"]*"//g; s/"target-features"="[^"]*"//g' \
        -e 's/"tune-cpu"="[^"]*"//g; s/"probe-stack"="[^"]*"//g' \
        -e 's/= {  *}/= { nounwind }/' "$1"
}

turn_to_arm() {
    name=$1 crate=$1_c
    keeping_toolchain
    set -- --extern "std=$kit/rlibs/std.rlib" -L "dependency=$kit/rlibs"
    for dep in $(sed -n "s/^$crate staticlib: //p" crates.txt); do
        set -- "$@" --extern "$dep=crates/$dep/out/rlib/$dep.rlib"
    done
    for folder in crates/*/out/rlib; do
        set -- "$@" -L "dependency=$folder"
    done
    "$kit/bin/rattle" build --crate-name "$crate" "crates/$crate/src/lib.rt" "$@" \
        --antt-project "$kit/rattle/logic/antt-project.json" --logic-built "$kit/logic_built" \
        --links "$crate=" --toolchain "$work/keep" --backend llvm \
        --crate-type staticlib -o "$work/unused.a" >"$work/build.out" 2>&1 ||
        { cat "$work/build.out" >&2; exit 1; }
    "$toolchain/bin/clang" --target=x86_64-unknown-linux-gnu -S -emit-llvm -x ir \
        "$work/module.bc" -o "$work/module.ll"
    turned "$work/module.ll" >"$work/turned.ll"
    "$toolchain/bin/clang" --target=aarch64-unknown-linux-gnu -O3 -fPIC -c -x ir \
        "$work/turned.ll" -o "$work/turned.o"
    "$toolchain/bin/llvm-ar" rcs "$work/lib$name.a" "$work/turned.o"
}

archive_of() {
    tools/staticlib "$1"
    case $machine in
    x86_64)
        archive=target/staticlib
        echo "way: the archive that rt wrote, linked as it is ($machine)"
        ;;
    aarch64)
        turn_to_arm "$1"
        archive=$work
        echo "way: the compiled module turned to $machine, not the archive that rt wrote"
        ;;
    *)
        echo "neither x86-64 nor Arm: $machine" >&2
        exit 1
        ;;
    esac
}
