#!/bin/bash
# Whether a listing assembles back to the bytes of its instructions: tools/listing.sh PROGRAM ROM CERT
#
# z80asm assembles each instruction of `galcert list` at its address. The bytes have to be those of the listing's own
# column, and of the ROM.
set -eu
program=$1; rom=$2; cert=$3
work=$(mktemp -d)
trap 'rm -rf "$work"' EXIT
"$program" list "$rom" "$cert" > "$work/list"
python3 - "$work/list" "$rom" "$work/source.asm" "$work/wanted" <<'END'
import re, sys
listing, rom, source, wanted = sys.argv[1:]
data = open(rom, "rb").read()
with open(source, "w") as asm, open(wanted, "w") as out:
    for line in open(listing):
        # Columns: address, bytes, instruction, T-states. A dump has more bytes, or nothing in the third column.
        line = line.rstrip("\n").ljust(50)
        found = re.fullmatch(r"([0-9A-F]{4})  ((?:[0-9A-F]{2} ?){1,4}) *", line[:19])
        text = line[19:43].strip()
        if not found or not text or not re.fullmatch(r" +[0-9/]+", line[43:49]):
            continue
        address, code = int(found.group(1), 16), bytes.fromhex(found.group(2))
        if data[address:address + len(code)] != code:
            sys.exit("%04X: not the ROM's bytes" % address)
        asm.write(" org 0%04Xh\n %s\n" % (address, text.split(" ;")[0]))
        out.write("%04X %s\n" % (address, code.hex().upper()))
END
count=$(wc -l < "$work/wanted")
[ "$count" -gt 0 ] || { echo "no instructions"; exit 1; }
z80asm -l -o "$work/out" "$work/source.asm" 2> "$work/assembled" || { grep error "$work/assembled" | head; exit 1; }
python3 - "$work/assembled" "$work/wanted" <<'END'
import re, sys
got = []
for line in open(sys.argv[1]):
    found = re.match(r"([0-9a-f]{4})((?: [0-9a-f]{2})+)\t", line)
    if found:
        got.append("%s %s" % (found.group(1).upper(), found.group(2).replace(" ", "").upper()))
wanted = open(sys.argv[2]).read().split("\n")[:-1]
for one, other in zip(got, wanted):
    if one != other:
        sys.exit("%s where the listing has %s" % (one, other))
if len(got) != len(wanted):
    sys.exit("%d of %d instructions" % (len(got), len(wanted)))
END
echo "$count instructions assemble back"
