# shellcheck shell=bash
# Packets from hex, sourced by tests/columns. Words may have blanks and line ends in them.
#   bytes HEX..             the bytes
#   field TAG HEX..         an item, tag in hex, with its shortest length; in hex
#   pack HEX..              a pack, id and items, with its length; in hex
#   text WORD               its bytes in hex
#   standalone HEX..        a standalone packet of these items: key, length, items, checksum
#   detector, reviewer      the packets examples/detector.vmti and examples/reviewer.vmti
hex() { printf '%s' "$@" | tr -d ' \n'; }
bytes() { printf '%b' "$(hex "$@" | sed 's/../\\x&/g')"; }
text() { printf '%s' "$1" | od -An -v -tx1 | tr -d ' \n'; }

# ber COUNT: a length, shortest
ber() {
  if [ "$1" -lt 128 ]; then printf '%02X' "$1"; elif [ "$1" -lt 256 ]; then printf '81%02X' "$1"; else printf '82%04X' "$1"; fi
}

pack() {
  local whole
  whole=$(hex "$@")
  printf '%s%s' "$(ber $((${#whole} / 2)))" "$whole"
}

field() {
  printf '%s' "$1"
  shift
  pack "$@"
}

standalone() {
  local items whole sum=0 at
  items=$(hex "$@" 0102)
  whole=060E2B34020B01010E01030306000000$(ber $((${#items} / 2 + 2)))$items
  for ((at = 0; at < ${#whole}; at += 2)); do
    sum=$((sum + 0x${whole:at:2} * (at % 4 == 0 ? 256 : 1)))
  done
  bytes "$whole" "$(printf '%04X' $((sum % 65536)))"
}

# survey COUNT WIDTH HEIGHT PACK..: a packet that says how many targets there are, with width and height as they come
survey() {
  local count=$1 width=$2 height=$3
  shift 3
  standalone "$(field 02 00065433 5E77F8D0)" "$(field 03 "$(text 'ridge thermal')")" "$(field 04 06)" "$(field 05 "$count")" \
    "$(field 06 "$count")" "08 $width" "09 $height" "$(field 0B 0640)" "$(field 65 "$@")"
}

# animal ID CONFIDENCE LOCATION HEX..: a pack
animal() {
  local id=$1 confidence=$2 location=$3
  shift 3
  pack "$id" "$(field 05 "$confidence")" "$(field 11 "$location")" "$@"
}

# mask HEX: the outline of target 2, its last corner as given
mask() { field 65 "$(field 01 030BFC57 030BFC62 030C1A65 030C385E "03$1")"; }

# What the detector sent. Its frame sizes have leading zeros, one a long length too; so has a row of target 1.
detector() {
  survey 03 '81 03 00 07 80' '03 00 04 38' \
    "$(animal 01 5A 2BC1A6B535B4E0750974 "$(field 01 1988F1)" "$(field 13 00000368)" "$(field 14 0471)" "$(field 1E 0007)")" \
    "$(animal 02 48 2BC1AD4235B4E5600975 "$(field 13 019D)" "$(field 14 DC)" "$(mask 0C21D8)")" \
    "$(animal 03 2D 2BC1B71735B4DB8B0973 "$(field 17 01)")"
}

# What the reviewer made of it: target 7 found, target 2's column and mask and target 1's private item corrected, target 3's
# status taken away and its height given.
reviewer() {
  survey 04 '02 07 80' '02 04 38' \
    "$(animal 01 5A 2BC1A6B535B4E0750974 "$(field 01 1988F1)" "$(field 13 0368)" "$(field 14 0471)" "$(field 1E 07)")" \
    "$(animal 02 48 2BC1AD4235B4E5600975 "$(field 13 019D)" "$(field 14 E2)" "$(mask 0C30D6)")" \
    "$(animal 03 2D 2BC1B71735B4DB8B0973 "$(field 0C 0972)")" \
    "$(animal 07 64 2BC19CE035B4EF340978 "$(field 13 0211)" "$(field 14 0583)")"
}
