#!/usr/bin/env bash
# tools/build: what it refuses, over a kit that is a stand-in, and on this machine that the real module is built for every processor. A build that fails
# says so in one line, and leaves nothing that is half built.
set -u
cd "$(dirname "$0")/.." || exit 2
work=$(mktemp -d) || exit 2
trap 'rm -rf "$work"' EXIT
failures=0

fail() {
    printf 'build.sh: %s\n' "$*" >&2
    failures=$((failures + 1))
}

# script FILE LINE..
script() {
    printf '%s\n' '#!/bin/sh' "${@:2}" >"$1"
    chmod +x "$1"
}

# A module as the kit's are, in text: the stand-in for clang writes as text what it is given.
cat >"$work/good.bc" <<'END'
source_filename = "rattle"
target datalayout = "e-m:e-i64:64-n8:16:32:64-S128"
target triple = "x86_64-unknown-linux-gnu"

; Function Attrs: nounwind
define internal noundef zeroext i1 @"board::asm::double"(ptr noundef %a0, i64 noundef %a1) #0 {
start:
  %r0 = alloca [16 x i8], align 8
  %r1 = alloca ptr, align 8
  call void @llvm.memmove.p0.p0.i64(ptr %r0, ptr %a0, i64 16, i1 false)
  %r2 = getelementptr inbounds nuw i8, ptr %r0, i64 8
  %r3 = load i8, ptr %r2, align 8, !range !1, !noundef !2
  %r4 = trunc nuw i8 %r3 to i1
  br i1 %r4, label %then.1, label %else.2

then.1:                                           ; preds = %start
  ret i1 true

else.2:                                           ; preds = %start
  %r5 = icmp ult i64 %a1, -1
  ret i1 %r5
}

define internal noundef { i64, i64 } @"board::asm::pair"(ptr noundef %a0) #0 {
start:
  %r0 = icmp eq ptr %a0, null
  %r1 = load { i64, i64 }, ptr %a0, align 8
  %r2 = extractvalue { i64, i64 } %r1, 0
  %r3 = insertvalue { i64, i64 } %r1, i64 %r2, 1
  ret { i64, i64 } %r3
}

define noundef i32 @muk_small(ptr noundef %a0, i64 noundef %a1, i16 noundef %a2) #0 {
start:
  %r0 = call i1 @"board::asm::double"(ptr %a0, i64 %a1)
  %r1 = zext i1 %r0 to i32
  ret i32 %r1
}

define noundef i32 @muk_version() #0 {
start:
  ret i32 1
}

declare void @llvm.memmove.p0.p0.i64(ptr writeonly captures(none), ptr readonly captures(none), i64, i1 immarg) #1

attributes #0 = { nounwind "probe-stack"="inline-asm" "target-cpu"="x86-64-v2" }
attributes #1 = { nocallback nofree nounwind willreturn memory(argmem: readwrite) }

!llvm.ident = !{!0}

!0 = !{!"rattle logic=0"}
!1 = !{i8 0, i8 2}
!2 = !{}
END
# fresh [MACHINE]: a repository with nothing built, and a kit that proves everything; the machine is x86_64 where no other is named.
fresh() {
    rm -rf "$work/repo" "$work/kit"
    bin=$work/kit/toolchain/bin
    mkdir -p "$work/repo/crates/board_c" "$work/repo/crates/muktrashi" "$work/repo/tools" "$work/kit/bin" "$bin"
    cp tools/build tools/pairs tools/portable tools/board_lines.py "$work/repo/tools/"
    : >"$work/repo/crates.txt"
    : >"$work/kit/KIT-ID"
    : >"$work/kit/bin/rtlib.py"
    cp "$work/good.bc" "$work/kit/module.bc"
    script "$work/kit/bin/uname" "echo ${1-x86_64}"
    # Of a library it hands its clang a module, with no environment, as the kit does; the program that it makes writes what it reads. The kit is where it
    # stands itself.
    script "$work/kit/bin/rt" 'kit=$(dirname "$(dirname "$(readlink -f "$0")")")' 'name=${PWD##*/}' \
        'echo "$name $*" >>../../proved' 'mkdir -p out' \
        'case $1 in' \
        "lib) env -i \"\$kit/toolchain/bin/clang\" --target=\${3-x86_64} -c -x ir \"\$kit/module.bc\" -o \"out/lib\$name.a\" ;;" \
        'run) printf "#!/bin/sh\nexec cat\n" >"out/$name" && chmod +x "out/$name" && exec "out/$name" ;;' \
        'esac'
    # It knows the targets of a file, writes a module as text, and compiles it to what names its target.
    printf '    %s - a processor\n' aarch64 thumb wasm32 x86-64 >"$work/kit/targets"
    script "$bin/clang" "[ \"\$1\" != --print-targets ] || exec cat $work/kit/targets" \
        "echo \"\$*\" >>$work/kit/compiled" \
        'for word; do case $last in -o) made=$word ;; ir) module=$word ;; esac; last=$word; done' \
        'case $* in' \
        '*-emit-llvm*) exec /bin/cp "$module" "$made" ;;' \
        'esac' \
        'for word; do case $word in --target=*) echo "$word" >"$made" ;; esac; done'
    script "$bin/llvm-ar" 'cp "$3" "$2"'
    script "$bin/ld.lld" '[ "$1" != --version ] || exit 0' 'for word; do case $last in -o) made=$word ;; esac; last=$word; done' 'echo "$*" >"$made"'
}

# builds TARGET: in silence, and nothing is left but what was asked for.
builds() {
    said=$(cd "$work/repo" && PATH="$work/kit/bin:$PATH" tools/build "$@" 2>&1) || fail "tools/build $* ended with status $?"
    [ -z "$said" ] || fail "tools/build $* says '$said'"
    tidy "$@"
}

# refuses STATUS MESSAGE TARGET..: says MESSAGE, in one line.
refuses() {
    local wanted=$1 message=$2
    shift 2
    said=$(cd "$work/repo" && PATH="${path-$work/kit/bin:$PATH}" tools/build "$@" 2>&1)
    status=$?
    [ "$status" -eq "$wanted" ] || fail "tools/build $* ended with status $status, not $wanted"
    [[ $said == *"$message"* ]] || fail "tools/build $* says '$said', not '$message'"
    [ "$(wc -l <<<"$said")" -eq 1 ] || fail "tools/build $* says more than a line: '$said'"
    [ ! -e "$work/repo/target/board/${!#}" ] || fail "tools/build $* is refused, and leaves target/board/${!#}"
    [ ! -e "$work/repo/target/native/muktrashi" ] || fail "tools/build $* is refused, and leaves a program"
    tidy "$@"
}

tidy() {
    [ -z "$(find "$work/repo/target" -name making 2>/dev/null)" ] || fail "tools/build $* leaves half a build"
    [ -z "$(find "$work/tmp" -mindepth 1)" ] || fail "tools/build $* leaves a temporary folder"
}
mkdir "$work/tmp" "$work/bare"
export TMPDIR=$work/tmp
# What tools/build itself needs, and no compiler, linker or kit.
for tool in bash cat chmod cmp cp dirname env find flock grep ln mkdir mktemp mv python3 readlink rm sed sh sleep touch; do
    ln -s "$(type -P "$tool")" "$work/bare/"
done

# Every library, of one proof; then nothing, until a source changes.
fresh
builds all
for target in x86_64 aarch64 cortex-m0 cortex-m3 cortex-m4 cortex-m4f wasm32; do
    [ -s "$work/repo/target/board/$target/libmuktrashi.a" ] || fail "there is no library for $target"
    builds "$target"
done
proofs=$'board_c lib\nboard_c lib\nboard_c lib --target aarch64-unknown-linux-gnu'
[ "$(cat "$work/repo/proved")" = "$proofs" ] || fail "one proof, made again over the kit of links, is enough for all but aarch64, and was '$(cat "$work/repo/proved")'"
for target in x86_64 aarch64-unknown-linux-gnu; do
    [ "$(cat "$work/repo/target/board/${target%%-*}/libmuktrashi.a")" = "--target=$target" ] || fail "the library for $target is not the kit's own"
done
exports=$(cat "$work/repo/target/board/wasm32/muktrashi.wasm")
for export in muk_small muk_version; do [[ $exports == *"--export=$export "* ]] || fail "muktrashi.wasm does not export $export: $exports"; done
grep -q -- '--target=thumbv7em-none-eabihf .*-mfloat-abi=hard' "$work/kit/compiled" || fail "the library for cortex-m4f has no hard float"
grep -- '--target=thumbv7' "$work/kit/compiled" | grep -qv -- -mno-unaligned-access && fail "a library for a Cortex-M may access what is not aligned"
cmp -s "$work/good.bc" "$work/repo/target/board/module.bc" || fail "target/board/module.bc is not the module that clang was handed"
touch "$work/repo/crates/board_c/lib.rt"
builds cortex-m3
[ "$(wc -l <"$work/repo/proved")" -eq 5 ] || fail "a source has changed, and the library is not built again"
for tool in build pairs portable; do
    : >"$work/kit/compiled"
    touch "$work/repo/tools/$tool"
    builds cortex-m3
    grep -q -- '--target=thumbv7m' "$work/kit/compiled" || fail "tools/$tool has changed, and the library is not built again"
done

# What cannot be built.
fresh
help=$("$work/repo/tools/build" --help) || fail "--help ended with status $?"
for target in program x86_64 aarch64 cortex-m0 cortex-m3 cortex-m4 cortex-m4f wasm32 all; do
    grep -q "^  $target " <<<"$help" || fail "--help does not tell of $target"
done
said=$("$work/repo/tools/build" 2>&1 >/dev/null)
[ $? -eq 2 ] && [ "$said" = "$help" ] || fail "without a target it says '$said'"
refuses 1 "build: there is no target 'cortex-m7'; the targets are program, x86_64 aarch64 cortex-m0" cortex-m7
refuses 2 "build: there is no option '--all'" --all
refuses 2 "build: one target at a time" cortex-m0 cortex-m3
rm "$work/kit/bin/rt"
path=$work/kit/bin:$work/bare refuses 1 "build: the command 'rt' of the Rattle kit is not on the PATH; install the kit that .ci/kit names" cortex-m0
fresh
rm "$work/kit/toolchain/bin/clang"
refuses 1 "build: the kit at $work/kit has no clang and llvm-ar; install the kit that .ci/kit names" cortex-m0
fresh riscv64
script "$bin/clang" 'exit 126'
refuses 1 "build: the kit at $work/kit does not run on this machine, riscv64; it is for x86-64 Linux" aarch64
refuses 1 "build: the kit at $work/kit does not run on this machine, riscv64; it is for x86-64 Linux" program
fresh
script "$work/kit/bin/rt" 'echo no proof of that; exit 1'
refuses 1 "build: the crate board_c is not proved ('rt lib' in crates/board_c ended with status 1); target/build.log has what it said" cortex-m0
refuses 1 "build: the crate board_c is not proved" x86_64
refuses 1 "build: the crate board_c is not proved ('rt lib --target aarch64-unknown-linux-gnu' in crates/board_c ended with status 1)" aarch64
refuses 1 "build: the crate muktrashi is not proved ('rt run' in crates/muktrashi ended with status 1); target/build.log has what it said" program
[ "$(cat "$work/repo/target/build.log")" = 'no proof of that' ] || fail "target/build.log has '$(cat "$work/repo/target/build.log")'"
script "$work/kit/bin/rt" 'exit 2'
refuses 1 "build: the kit failed ('rt lib' in crates/board_c ended with status 2)" cortex-m0
script "$work/kit/bin/rt" 'exit 0'
refuses 1 "build: the kit gives no archive" cortex-m0
refuses 1 "build: the kit gives no program" program
script "$work/kit/bin/rt" 'mkdir -p out' ': >out/libboard_c.a'
refuses 1 "build: the kit gives no module of board_c" cortex-m0
fresh
builds cortex-m0
script "$work/kit/bin/rt" ': >out/libboard_c.a'
touch "$work/repo/crates/board_c/lib.rt"
refuses 1 "build: the kit gives no module of board_c" cortex-m3
script "$work/kit/bin/rt" 'exit 0'
refuses 1 "build: the kit gives no archive" cortex-m3
fresh
: >"$work/repo/target"
refuses 1 "build: the folder target cannot be written" cortex-m3
fresh
sed -i /thumb/d "$work/kit/targets"
refuses 1 "build: the kit's clang has no back end for cortex-m0 (thumb)" cortex-m0
[ ! -e "$work/repo/proved" ] || fail "proofs are checked for a processor that there is no back end for"
builds aarch64
fresh
ln -sf "$(type -P false)" "$bin/ld.lld"
path=$work/kit/bin:$work/bare refuses 1 "build: there is no linker for WebAssembly, wasm-ld; install Debian's package lld" wasm32

fresh
sed -i "2i [ \"\$0\" = $work/kit/bin/rt ] || { echo else >out/libboard_c.a; exit; }" "$work/kit/bin/rt"
refuses 1 "build: the kit makes another archive of board_c where its module is kept" cortex-m0

# A module with a form that may mean another thing elsewhere.
not_portable() {
    sed "$1" "$work/good.bc" >"$work/module"
    cmp -s "$work/good.bc" "$work/module" && fail "'$1' changes nothing"
    said=$(tools/portable "$work/module" 2>&1 >/dev/null) && fail "tools/portable takes a module changed by '$1'"
    [[ $said == "portable: "*"$2"* ]] || fail "tools/portable says '$said' of a module changed by '$1', not '$2'"
}
not_portable 's/%r1 = zext.*/%r1 = ptrtoint ptr %a0 to i32/' "has 'ptrtoint'"
not_portable 's/alloca ptr, align 8/inttoptr i64 %a1 to ptr/' "has 'inttoptr'"
not_portable 's/^; Function.*/@data = constant i32 7/' 'has data or a type of its own: @data'
not_portable 's/^; Function.*/%pair = type { i32, i32 }/' 'has data or a type of its own: %pair'
not_portable 's/alloca ptr, align 8/alloca { i64, i8 }, align 8/' 'has a struct or a vector'
not_portable 's/alloca ptr, align 8/alloca <4 x i32>, align 16/' 'has a struct or a vector'
not_portable 's/^define internal noundef zeroext i1/define internal { i64, i1 }/' 'has a struct or a vector'
not_portable 's/load { i64, i64 }/load { ptr, i64 }/' 'has a struct or a vector'
not_portable 's/load { i64, i64 }/load { ptr, i1 }/' 'has a struct or a vector'
not_portable 's/alloca ptr, align 8/alloca { ptr, i64 }, align 8/' 'has a struct or a vector'
not_portable 's/load { i64, i64 }, ptr %a0/load { i64, ptr }, ptr @pair/' 'has a struct or a vector'
not_portable 's/getelementptr inbounds nuw i8/getelementptr inbounds nuw ptr/' 'has a place that is not counted in bytes'
not_portable 's/%r5 = icmp.*/%r5 = fcmp olt double 1.0, 2.0/' "has 'fcmp'"
not_portable 's/alloca ptr, align 8/alloca i128, align 8/' "has 'i128'"
not_portable 's/%r1 = zext.*/%r1 = call i32 asm "nop", "=r"()/' "has 'asm'"
not_portable 's/^declare.*/declare i32 @puts(ptr)/' 'has a call out of the module: declare i32 @puts'
not_portable 's/"target-cpu"/"target-features"="+sse2" &/' 'has more of a processor than its name'
not_portable 's/^target triple.*/target triple = "i686-unknown-linux-gnu"/' 'has another processor than x86-64'
not_portable '/^target triple/d' 'no processor is named'
entry='has a function for others of another form'
not_portable 's/ptr noundef %a0, i64 noundef %a1, i16/ptr noundef byval([8 x i8]) %a0, i64 noundef %a1, i16/' "$entry"
not_portable 's/define noundef i32 @muk_small/define noundef ptr @muk_small/' "$entry"
not_portable 's/i16 noundef %a2/i16 noundef zeroext %a2/' "$entry"
not_portable 's/@muk_small/@small/' "$entry"
not_portable 's/^define noundef i32 @muk/define internal noundef i32 @muk/' 'there is no function for others'
tools/portable "$work/good.bc" | diff "$work/good.bc" - >"$work/changes"
[ "$(grep -c '^[<>]' "$work/changes")" -eq 2 ] && grep -q '^> attributes #0 = { nounwind "probe-stack"="inline-asm" }$' "$work/changes" ||
    fail "tools/portable changes more than the processor's name, or less: $(cat "$work/changes")"
# with_pairs FIRST SECOND ALIGN: the module, and functions in it that hand on such pairs, from memory aligned so or to four bytes.
with_pairs() {
    cat "$work/good.bc" - <<END

define internal noundef { $1, $2 } @"board::asm::answers"(ptr noundef %a0, i64 noundef %a1) #0 {
start:
  %r0 = load { $1, $2 }, ptr %a0, align $3
  ret { $1, $2 } %r0
}

define internal { $1, $2 } @nothing() #0 {
  %r0 = alloca [16 x i8], align 4
  %r1 = load { $1, $2 }, ptr %r0, align 4
  ret { $1, $2 } %r1
}

define internal void @"board::asm::takes"(ptr noundef %a0) #0 {
start:
  br label %turn.1

turn.1:                                           ; preds = %turn.1, %start
  %r0 = call { $1, $2 } @"board::asm::answers"(ptr %a0, i64 7)
  %r1 = extractvalue { $1, $2 } %r0, 0
  %r2 = extractvalue { $1, $2 } %r0, 1
  %r3 = call noundef { $1, $2 } @nothing()
  %r4 = extractvalue { $1, $2 } %r3, 1
  %r5 = icmp eq $2 %r2, %r4
  br i1 %r5, label %turn.1, label %end.2

end.2:                                            ; preds = %turn.1
  ret void
}
END
}

# lent FIRST SECOND PLACE SIZE: of the second member and of both, as on x86-64. They are handed on in memory that the caller lends, once for all turns.
lent() {
    local align=$(($3 < 4 ? $3 : 4))
    with_pairs "$1" "$2" "$3" >"$work/module"
    tools/pairs "$work/module" >"$work/paired" || fail "tools/pairs ended with status $?"
    cat "$work/good.bc" - <<END | diff "$work/paired" - >"$work/changes" || fail "tools/pairs writes (<) of a pair '$1, $2': $(cat "$work/changes")"

define internal void @"board::asm::answers"(ptr noundef %lent, ptr noundef %a0, i64 noundef %a1) #0 {
start:
  %lent.first.r0 = load $1, ptr %a0, align $3
  %lent.from.r0 = getelementptr i8, ptr %a0, i64 $3
  %lent.second.r0 = load $2, ptr %lent.from.r0, align $3
  store $1 %lent.first.r0, ptr %lent, align $3
  %lent.to.r0 = getelementptr i8, ptr %lent, i64 $3
  store $2 %lent.second.r0, ptr %lent.to.r0, align $3
  ret void
}

define internal void @nothing(ptr noundef %lent) #0 {
  %r0 = alloca [16 x i8], align 4
  %lent.first.r1 = load $1, ptr %r0, align 4
  %lent.from.r1 = getelementptr i8, ptr %r0, i64 $3
  %lent.second.r1 = load $2, ptr %lent.from.r1, align $align
  store $1 %lent.first.r1, ptr %lent, align $3
  %lent.to.r1 = getelementptr i8, ptr %lent, i64 $3
  store $2 %lent.second.r1, ptr %lent.to.r1, align $3
  ret void
}

define internal void @"board::asm::takes"(ptr noundef %a0) #0 {
start:
  %lent.pair.r0 = alloca [$4 x i8], align $3
  %lent.pair.r3 = alloca [$4 x i8], align $3
  br label %turn.1

turn.1:                                           ; preds = %turn.1, %start
  call void @"board::asm::answers"(ptr %lent.pair.r0, ptr %a0, i64 7)
  %r1 = load $1, ptr %lent.pair.r0, align $3
  %lent.at.r2 = getelementptr i8, ptr %lent.pair.r0, i64 $3
  %r2 = load $2, ptr %lent.at.r2, align $3
  call void @nothing(ptr %lent.pair.r3)
  %lent.at.r4 = getelementptr i8, ptr %lent.pair.r3, i64 $3
  %r4 = load $2, ptr %lent.at.r4, align $3
  %r5 = icmp eq $2 %r2, %r4
  br i1 %r5, label %turn.1, label %end.2

end.2:                                            ; preds = %turn.1
  ret void
}
END
    said=$(tools/portable "$work/paired" 2>&1 >/dev/null) || fail "tools/portable says '$said' of a pair '$1, $2' that tools/pairs has written"
    tools/portable "$work/module" >/dev/null 2>&1 && fail "tools/portable takes a pair '$1, $2'"
}
lent ptr i64 8 16
lent i8 ptr 8 16
lent i8 i32 4 8
lent i32 i32 4 8
lent i8 i16 2 4
lent i64 i8 8 9
tools/pairs "$work/good.bc" | cmp -s - "$work/good.bc" || fail "tools/pairs changes a module in which no other pair is handed on"
with_pairs i8 ptr 8 >"$work/pairs"
sed 's/%r0/%lent/g' "$work/pairs" >"$work/module"
tools/pairs "$work/module" | grep -qxF '  %lent1.pair.lent = alloca [16 x i8], align 8' || fail "tools/pairs makes a name that may be there"

# A pair in another form is left, and refused.
left() {
    sed "$1" "$work/pairs" >"$work/module"
    cmp -s "$work/pairs" "$work/module" && fail "'$1' changes nothing"
    tools/pairs "$work/module" >"$work/paired" || fail "tools/pairs ended with status $?"
    said=$(tools/portable "$work/paired" 2>&1 >/dev/null) && fail "tools/portable takes what tools/pairs writes of a module changed by '$1'"
    [[ $said == "portable: "*"has $2" ]] || fail "tools/portable says '$said' of what tools/pairs writes of a module changed by '$1', not '$2'"
}
struct='a struct or a vector: ' take='^  %r1 = extractvalue { i8, ptr } %r0, 0' answer='define internal { i8, ptr } @nothing()'
for form in 'alloca { i8, ptr }, align 8' 'load { i8, ptr }, ptr %a0, align 8' 'insertvalue { i8, ptr } %r0, i8 0, 0' \
    'select i1 true, { i8, ptr } %r0, { i8, ptr } %r0' 'extractvalue { i8, ptr } %a0, 0' 'extractvalue { ptr, i8 } %r0, 0' 'call i8 @other({ i8, ptr } %r0)' \
    'tail call { i8, ptr } @nothing()' 'call { i8, ptr } @nothing() #0' 'call { i8, ptr } @nothing(), !noundef !2' 'call { ptr, i8 } @nothing()' \
    'call { i8, ptr } @other()' 'call { i8, ptr } %a0()' 'call { i8, i1 } @nothing()' 'call { i8, ptr, i8 } @nothing()'; do
    left "s/$take/  %r1 = $form/" "$struct%r1 = $form"
done
for form in '{ i8, i1 }' '{ i128, ptr }' '{ i8, ptr, i8 }' '{ i8 }' '<{ i8, ptr }>' '{ i8, { ptr, i64 } }'; do
    left "s/{ i8, ptr }/$form/g" "${struct}define internal noundef $form @\"board::asm::answers\"(ptr noundef %a0, i64 noundef %a1) #0 {"
done
left "s/$take/  store { i8, ptr } %r0, ptr %a0, align 8/" "${struct}store { i8, ptr } %r0, ptr %a0, align 8"
left 's/^turn.1:.*/&\n  %r9 = phi { i8, ptr } [ undef, %start ], [ %r0, %turn.1 ]/' "$struct%r9 = phi { i8, ptr } [ undef, %start ], [ %r0, %turn.1 ]"
left 's/^  ret { i8, ptr } %r1/  ret { i8, ptr } %r9/' "$struct%r1 = load { i8, ptr }, ptr %r0, align 4"
left 's/^  ret { i8, ptr } %r1/  store i8 0, ptr %r0, align 1\n&/' "$struct%r1 = load { i8, ptr }, ptr %r0, align 4"
left 's/load { i8, ptr }, ptr %r0, align 4/&, !noundef !2/' "$struct%r1 = load { i8, ptr }, ptr %r0, align 4, !noundef !2"
left 's/%r1 = load { i8/%1 = load { i8/; s/ret { i8, ptr } %r1/ret { i8, ptr } %1/' "$struct%1 = load { i8, ptr }, ptr %r0, align 4"
left "s/$answer/define internal fastcc { i8, ptr } @nothing()/" "${struct}define internal fastcc { i8, ptr } @nothing() #0 {"
left "s/$answer #0/& align 8/" "$struct$answer #0 align 8 {"
left "s/$answer/define { i8, ptr } @muk_nothing()/" 'a function for others of another form: define { i8, ptr } @muk_nothing() #0 {'
# Others may call a function whose address they are given, and they know nothing of the address more.
left 's/^  %r5 = icmp eq ptr %r2, %r4/  store ptr @nothing, ptr %a0, align 8\n&/' "$struct$answer #0 {"
left 's/^  %r5 = icmp eq ptr %r2, %r4/  store ptr @"board::asm::answers", ptr %a0, align 8\n&/' \
    "${struct}define internal noundef { i8, ptr } @\"board::asm::answers\"(ptr noundef %a0, i64 noundef %a1) #0 {"
# A function that is said to write nothing would not leave its answer.
left "s/$answer #0/$answer #1/" "$struct$answer #1 {"
left 's/^attributes #0 = { nounwind/& memory(none)/' \
    "${struct}define internal noundef { i8, ptr } @\"board::asm::answers\"(ptr noundef %a0, i64 noundef %a1) #0 {"

fresh
cp "$work/pairs" "$work/kit/module.bc"
builds cortex-m0
fresh
builds x86_64
sed 's/alloca ptr/alloca i128/' "$work/good.bc" >"$work/repo/target/board/module.bc"
refuses 1 "build: the module of board_c may mean another thing on another processor, so it is built for x86-64 and 64-bit ARM alone: line 9 has 'i128'" cortex-m0
sed 's/^turn.1:.*/&\n  %r9 = phi { i8, ptr } [ undef, %start ], [ %r0, %turn.1 ]/' "$work/pairs" >"$work/repo/target/board/module.bc"
refuses 1 "build: the module of board_c may mean another thing on another processor" cortex-m0
printf '\377' >"$work/repo/target/board/module.bc"
refuses 1 "build: tools/pairs cannot read the module of board_c; target/build.log has what it said" cortex-m0
script "$bin/clang" "[ \"\$1\" != --print-targets ] || exec cat $work/kit/targets" 'exit 1'
refuses 1 "build: the kit's clang cannot read the module of board_c" cortex-m3

# The program is the kit's own, of one proof, until a source changes. What `rt` keeps beside the sources changes nothing.
fresh
builds program
builds program
[ "$(cat "$work/repo/proved")" = 'muktrashi run' ] || fail "one proof is enough for a program, and was '$(cat "$work/repo/proved")'"
cmp -s "$work/repo/crates/muktrashi/out/muktrashi" "$work/repo/target/native/muktrashi" || fail "the program is not the kit's own"
[ "$("$work/repo/target/native/muktrashi" <<<good)" = good ] || fail "the program does not run"
touch "$work/repo/crates/muktrashi/out/muktrashi"
builds program
[ "$(wc -l <"$work/repo/proved")" -eq 1 ] || fail "the program is built again, and no source has changed"
touch "$work/repo/crates/muktrashi/main.rt"
builds program
[ "$(wc -l <"$work/repo/proved")" -eq 2 ] || fail "a source has changed, and the program is not built again"

# A build that is stopped leaves nothing, and stops what it began.
fresh
script "$work/kit/bin/rt" "sleep 30 & echo \$! >$work/sleeps" wait
(cd "$work/repo" && PATH="$work/kit/bin:$PATH" exec tools/build cortex-m0) 2>/dev/null &
stopped=$!
for _ in {1..50}; do [ -s "$work/sleeps" ] && break; sleep 0.1; done
kill "$stopped"
wait "$stopped" && fail "a build that was stopped ended with status 0"
for _ in {1..30}; do kill -0 "$(cat "$work/sleeps")" 2>/dev/null || break; sleep 0.1; done
kill -0 "$(cat "$work/sleeps")" 2>/dev/null && fail "a build that was stopped goes on"
tidy cortex-m0

# The real module, for every processor; compiled for x86-64 as the kit does it, it is the kit's archive.
unset TMPDIR
if command -v rt >/dev/null 2>&1; then
    tools/build all || fail "tools/build all ended with status $?"
    tools=$(dirname "$(dirname "$(readlink -f "$(command -v rt)")")")/toolchain/bin
    "$tools/clang" --target=x86_64-unknown-linux-gnu -march=x86-64 -mllvm -no-trap-after-noreturn -ffunction-sections -fdata-sections \
        -mllvm -trap-unreachable -mllvm -no-x86-call-frame-opt -mllvm -disable-machine-licm -mllvm -disable-postra-machine-licm \
        -mllvm -sink-common-insts=false --no-default-config -no-canonical-prefixes -fintegrated-cc1 -Werror -fPIC -O3 -c -x ir target/board/module.bc \
        -o "$work/object" || fail "the module is not compiled for x86-64"
    "$tools/llvm-ar" p target/board/x86_64/libmuktrashi.a | cmp - "$work/object" || fail "target/board/module.bc is not what the kit compiles"
else
    printf "build.sh: warning: NOT RUN: the real module; the command 'rt' of the Rattle kit is not on the PATH\n" >&2
fi

[ "$failures" -eq 0 ] && printf 'build.sh: tools/build builds what it should, and refuses the rest in words\n'
exit "$((failures > 0))"
