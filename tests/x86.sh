# shellcheck shell=bash disable=SC2034
# The proved code is for x86-64 alone, and so is the kit. Sourced by the tests that run what is built:
#   $home                 the kit's folder
#   $archive              the library for C; x86_archive sees to it
#   x86_cc WORD..         compiles and links C with it
#   x86_program NAME      sees to the program crates/NAME/out/NAME
#   x86_kit_run PROGRAM.. runs it, under the kit's loader and C library
#   kept_module FOLDER    the LLVM module of the archive, and the words that the kit's compiler is given with it; the folder is outside
#                         the tree, in which rt ci refuses links
#   kept_clang FOLDER KIND OUT WORD..  that compiler once more on that module, with those words and these; KIND is -c or -S
#   second_bench          the second reader's bench, its functions aligned as ours; its path is $second
[ "$(uname -m)" = x86_64 ] || { echo "$0: only an x86-64 machine can build and run the proved code"; exit 2; }
home=$(dirname "$(dirname "$(readlink -f "$(command -v rt)")")")
archive=crates/vmti/out/libvmti.a
# each function of the archive begins at 16 bytes
aligned=-align-all-functions=4
warnings='-std=c11 -O2 -g -Wall -Wextra -Werror -Iinclude'

# the archive need not be position independent
x86_cc() { gcc -no-pie "$@"; }

x86_kit_run() { "$home/toolchain/lib/ld-linux-x86-64.so.2" --library-path "$home/toolchain/lib" "$@"; }

# made FILE: as the Makefile has it
made() {
  mkdir -p target
  make --no-print-directory "$1" > target/made.log 2>&1 || { tail -n 5 target/made.log; return 1; }
}

x86_archive() { made "$archive"; }

x86_program() { made "crates/$1/out/$1"; }

# kept_module FOLDER: makes the archive by a kit that is this one but for its clang, which keeps what it is given, as module.bc and
# words. rt goes by where its own two files lie, so these are copied.
kept_module() {
  mkdir -p "$1"/{bin,toolchain/bin}
  link_all "$home" "$1" bin toolchain
  link_all "$home/bin" "$1/bin" rt rtlib.py
  link_all "$home/toolchain" "$1/toolchain" bin
  link_all "$home/toolchain/bin" "$1/toolchain/bin" clang
  cp "$home"/bin/{rt,rtlib.py} "$1/bin"
  cat > "$1/toolchain/bin/clang" << END
#!/bin/sh
for word in "\$@"; do case \$word in *.bc) cp "\$word" "$1/module.bc" ;; esac; done
printf '%s\\n' "\$@" > "$1/words"
exec "$home/toolchain/bin/clang" "\$@"
END
  chmod +x "$1/toolchain/bin/clang"
  (cd crates/vmti && "$1/bin/rt" lib) > target/made.log 2>&1 || { tail -n 5 target/made.log; return 1; }
  [ -s "$1/module.bc" ] && [ -s "$1/words" ]
}

kept_clang() {
  local kept=$1 kind=$2 out=$3 word last='' words=()
  while IFS= read -r word; do
    case $last:$word in
      -o:*) word=$out ;;
      *:-c) word=$kind ;;
      *:*.bc) word=$kept/module.bc ;;
      *:--sysroot=*) word=--sysroot=$home/toolchain ;;
    esac
    words+=("$word")
    last=$word
  done < "$kept/words"
  "$home/toolchain/bin/clang" "${words[@]}" "${@:4}"
}

second=tests/compare/target/aligned/release/bench
second_bench() {
  RUSTFLAGS="-C llvm-args=$aligned" cargo build --quiet --offline --release --manifest-path tests/compare/Cargo.toml --target-dir tests/compare/target/aligned --bin bench
}

# link_all FROM TO BUT..: each file of a folder linked in another, but for these
link_all() {
  local file
  for file in "$1"/*; do
    case " ${*:3} " in *" ${file##*/} "*) ;; *) ln -s "$file" "$2/" ;; esac
  done
}
