#!/usr/bin/env bash
# Prints, for each parameter set, how many signatures are verified per second, and which share of
# that time the compression of as many blocks of SHA-256 takes alone.
#
# The signatures are zeros, and each is judged for another message, so the number of a chain's steps
# is that of a signature in the mean. Counts of blocks, from RFC 8554 and RFC 8391:
#   HSS   2 for the message, one for each step, those of the key candidate, 1 for the leaf, 2 for
#         each height. Steps in the mean: 133, 200, 506, 4442 for W = 1, 2, 4, 8.
#   XMSS  1 that is kept, 3 for the message, 4 for each of 505 steps in the mean, 6 for each of the
#         66 pairs of the L-tree and for each height.
#   XMSS^MT  the same, where the steps, the pairs and the heights count once for each layer.
set -e
cd "$(dirname "$0")/../crates/benches"
rt run > /dev/null 2>&1
program=out/benches

# The microseconds that the program takes for some words.
micros() {
  local start=${EPOCHREALTIME/[.,]/}
  "$program" "$@" > /dev/null
  echo $((${EPOCHREALTIME/[.,]/} - start))
}

calls=200000
echo "sha256: $((calls * 1000000 / $(micros sha256 $calls))) blocks per second"

# A name, the blocks of a verification, the count, and the words. The hash is timed anew for each.
report() {
  local name=$1 blocks=$2 count=$3
  shift 3
  local block time
  block=$(micros sha256 $calls)
  time=$(micros "$@" "$count")
  echo "$name: $((count * 1000000 / time)) per second, $((100 * blocks * count * block / calls / time))% in SHA-256"
}

steps=(0 133 200 506 4442)
candidate=(0 133 67 34 18)
widths=(0 1 2 4 8)
counts=(0 4000 4000 3000 400)
for one_time in 1 2 3 4; do
  for tree in 5 6 7 8 9; do
    height=$(((tree - 4) * 5))
    blocks=$((2 + steps[one_time] + candidate[one_time] + 1 + 2 * height))
    report "hss h=$height w=${widths[one_time]}" $blocks "${counts[one_time]}" hss $tree $one_time
  done
done
heights=(0 10 16 20)
for set in 1 2 3; do
  report "xmss h=${heights[set]}" $((4 + 4 * 505 + 6 * 66 + 6 * heights[set])) 400 xmss $set
done
layers=(0 2 4 2 4 8 3 6 12)
heights=(0 10 5 20 10 5 20 10 5)
for set in 1 2 3 4 5 6 7 8; do
  blocks=$((4 + layers[set] * (4 * 505 + 6 * 66 + 6 * heights[set])))
  report "xmssmt h=$((layers[set] * heights[set])) d=${layers[set]}" $blocks $((800 / layers[set])) xmssmt $set
done
