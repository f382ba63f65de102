# A small checkout with a stand-in for the toolchain's rt and rattle, which has the real compiler compile modules that are written here. For
# the test scripts, which source this file instead of common.sh:
#     $repository   the checkout, with two crates to export; the name of its folder has a space
#     $MODULES      the folder of the modules in place of the crates
#     modules [SED] writes the modules of both crates, the second one changed by a script of sed
#     tuning COPIED CALLED ALIGNED OWN   writes tools/tuning.toml of these lists; they are empty at first
# shellcheck shell=bash disable=SC2034 # the scripts that source this file use its variables
. "$(dirname "${BASH_SOURCE[0]}")/common.sh" || exit 2
. tools/kit
find_kit || exit 2
repository="$work/a checkout"
stand_in="$work/a kit"
at=toolchain/bin
mkdir -p "$repository"/{tools,include,rust,crates/exports,crates/more_exports} "$stand_in/bin" "$stand_in/$at" "$work/modules"
cp tools/{library,merge_modules,kit,alone,is_current} "$repository/tools"
cp rust/Cargo.toml "$repository/rust"
printf 'exports staticlib:\nmore_exports staticlib:\n' >"$repository/crates.txt"
printf 'YOKTVARIM_MUST_USE yoktvarim_answer yoktvarim_%s(void);\n' one two >"$repository/include/yoktvarim.h"
ln -s "$kit/toolchain/lib" "$stand_in/toolchain/lib"
ln -s "$clang" "$stand_in/$at/clang"

# The stand-in for rt proves every crate. That for rattle compiles each module in place of a crate, as the toolchain does.
cat >"$stand_in/bin/rt" <<'SCRIPT'
#!/bin/sh
[ "$*" = 'lib --cpu x86-64' ] || exit 2
SCRIPT
cat >"$stand_in/bin/rattle" <<'SCRIPT'
#!/bin/sh
[ "$1:$2" = build:--crate-name ] || exit 2
crate=$3
while [ "$1" != --toolchain ]; do shift; done
for module in "$MODULES/$crate"*.ll; do
    [ -e "$module" ] || exit 0
    rm -f "$MODULES/module.bc"
    "$CLANG" --target="$(sed -nE 's/^target triple = "(.*)"/\1/p' "$module")" -c -emit-llvm -x ir "$module" -o "$MODULES/module.bc"
    "$2/bin/clang" -Wno-override-module -c -x ir "$MODULES/module.bc" -o "$MODULES/module.o"
done
SCRIPT
chmod +x "$stand_in/bin/rt" "$stand_in/bin/rattle"
export MODULES=$work/modules CLANG=$clang
export PATH=$stand_in/bin:$PATH

# module FUNCTION [SED]: a module with this visible function and one that all crates share, changed by a script of sed.
module() {
    sed -E "${2:-}" <<TEXT
source_filename = "rattle"
target datalayout = "e-m:e-p270:32:32-p271:32:32-p272:64:64-i64:64-i128:128-f80:128-n8:16:32:64-S128"
target triple = "x86_64-unknown-linux-gnu"

define internal noundef i32 @"common::next"(i32 noundef %a0) #0 {
  %r0 = alloca i8, align 1
  store i8 1, ptr %r0, align 1
  %r1 = load i8, ptr %r0, align 1, !range !1
  %r2 = add i32 %a0, 1
  ret i32 %r2
}

define noundef i32 @yoktvarim_$1(i32 noundef %a0) #0 {
  %r0 = call i32 @"common::next"(i32 %a0)
  ret i32 %r0
}

attributes #0 = { noinline nounwind "probe-stack"="inline-asm" "stack-probe-size"="3072" "target-cpu"="x86-64" }

!llvm.ident = !{!0}
!0 = !{!"rattle"}
!1 = !{i8 0, i8 2}
TEXT
}

tuning() {
    printf 'copied = [%s]\ncalled = [%s]\naligned = [%s]\n[own]\n%s\n' "$@" >"$repository/tools/tuning.toml"
}
tuning '' '' '' ''

modules() {
    rm -f "$MODULES"/*
    module one >"$MODULES/exports.ll"
    module two "${1:-}" >"$MODULES/more_exports.ll"
}
