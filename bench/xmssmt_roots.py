#!/usr/bin/env python3
"""The roots to which made-up XMSS^MT signatures lead, by RFC 8391 alone: for each of the eight sets with SHA-256, the root of the first
signature whose octets are all zero and that of one whose values differ. A line is `SET IDX STEP ROOT`.

The key has SEED = STEP in each octet; value i of a layer is the octet STEP * i; the randomizer is STEP in each octet, and the key's
root too is made of one octet, 0 where STEP is 0 and else 5. The message is `abc`."""
from hashlib import sha256

# Section 5.4: the height and the layers of a set.
SETS = {1: (20, 2), 2: (20, 4), 3: (40, 2), 4: (40, 4), 5: (40, 8), 6: (60, 3), 7: (60, 6), 8: (60, 12)}
CASES = [(1, 0, 0), (1, 1048575, 3), (2, 0, 0), (2, 699050, 3), (3, 1099511627775, 3), (4, 733007751850, 3), (5, 78187493530, 3),
         (6, 1152921504606846975, 3), (7, 768614336404564650, 3), (8, 0, 0), (8, 768614336404564650, 3), (8, 1152921504606846975, 5)]


def keyed(number, key, message):
    """F, H, H_msg and PRF (section 5.1)."""
    return sha256(number.to_bytes(32, "big") + key + message).digest()


def address(layer, tree, *words):
    """A hash function address (section 2.5): its words behind layer and tree, of which the last is keyAndMask."""
    return b"".join([layer.to_bytes(4, "big"), tree.to_bytes(8, "big")] + [word.to_bytes(4, "big") for word in words])


def prf(seed, adrs):
    return keyed(3, seed, adrs)


def xor(left, right):
    return bytes(a ^ b for a, b in zip(left, right))


def chain(seed, layer, tree, leaf, number, start, value):
    """Algorithm 2, up to step 15."""
    for step in range(start, 15):
        key = prf(seed, address(layer, tree, 0, leaf, number, step, 0))
        mask = prf(seed, address(layer, tree, 0, leaf, number, step, 1))
        value = keyed(0, key, xor(value, mask))
    return value


def rand_hash(seed, layer, tree, words, left, right):
    """Algorithm 7. The words are those between the tree and keyAndMask."""
    key, first, second = (prf(seed, address(layer, tree, *words, mask)) for mask in range(3))
    return keyed(1, key, xor(left, first) + xor(right, second))


def digits(digest):
    """The digits of base 16 with those of the checksum (section 3.1.5)."""
    listed = [half for octet in digest for half in (octet >> 4, octet & 15)]
    checksum = sum(15 - digit for digit in listed) << 4
    return listed + [checksum >> 12 & 15, checksum >> 8 & 15, checksum >> 4 & 15]


def l_tree(seed, layer, tree, leaf, nodes):
    """Algorithm 8."""
    height = 0
    while len(nodes) > 1:
        pairs = [rand_hash(seed, layer, tree, (1, leaf, height, i), nodes[2 * i], nodes[2 * i + 1]) for i in range(len(nodes) // 2)]
        nodes = pairs + nodes[len(nodes) // 2 * 2:]
        height += 1
    return nodes[0]


def layer_root(seed, layer, tree, leaf, digest, ots, path):
    """Algorithm 13."""
    ends = [chain(seed, layer, tree, leaf, i, digit, ots[i]) for i, digit in enumerate(digits(digest))]
    node = l_tree(seed, layer, tree, leaf, ends)
    index = leaf
    for height, sibling in enumerate(path):
        left, right = (sibling, node) if index % 2 else (node, sibling)
        index //= 2
        node = rand_hash(seed, layer, tree, (2, 0, height, index), left, right)
    return node


def root(number, idx, step):
    """Algorithm 17, up to the root of the highest layer."""
    height, layers = SETS[number]
    own = height // layers
    seed = randomizer = bytes([step]) * 32
    key_root = bytes([5 if step else 0]) * 32
    values = [bytes([step * i % 256]) * 32 for i in range(67 + own)]
    digest = keyed(2, randomizer + key_root + idx.to_bytes(32, "big"), b"abc")
    tree = idx
    for layer in range(layers):
        leaf, tree = tree % 2 ** own, tree >> own
        digest = layer_root(seed, layer, tree, leaf, digest, values[:67], values[67:])
    return digest


for number, idx, step in CASES:
    print(number, idx, step, root(number, idx, step).hex())
