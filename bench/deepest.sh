#!/bin/sh
# Measures what the limited search takes of the stack on a path of 8,256 splits, as many as one can have. No sheet that the reader accepts is known to have one, so
# in a copy of the archive, under target/, the reader's code is another: it accepts every sheet, by the counts in the header. The search is the archive's own code,
# and is called with a sheet of 8,256 terms. (Needs the GNU binutils, and knows how the compiler passes a slice and the reader's answer.)
set -eu
cd "$(dirname "$0")/.."
tools/archive.sh > /dev/null
copy=target/deepest
mkdir -p "$copy"
cp target/staticlib/liblihumbay.a "$copy/"
# The reader's answer goes where rdi says: the case, 0 for a header, and from byte 2 on its three counts. In rsi stands the sheet's address.
as -o "$copy/reader.o" - <<'END'
    movzwl 4(%rsi), %ecx
    movl (%rsi), %eax
    movw $0, (%rdi)
    movl %eax, 2(%rdi)
    movw %cx, 6(%rdi)
    ret
END
objcopy -O binary --only-section=.text "$copy/reader.o" "$copy/reader"
(cd "$copy" && ar x liblihumbay.a lihumbay_c.o && objcopy --remove-relocations='.text.reader::read' --update-section '.text.reader::read=reader' lihumbay_c.o && ar r liblihumbay.a lihumbay_c.o)
LIHUMBAY_ARCHIVE="$PWD/$copy" cargo build --release -p measure --target-dir "$copy/cargo"
"$copy/cargo/release/measure" deepest
