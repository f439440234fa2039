"""The plain program's demo repository, by docs/formats.md alone."""
from common import EMPTY

MASK = 2 ** 64 - 1


def words_of(seed):
    """Xoshiro256++ from a seed, which SplitMix64 spreads."""
    state = []
    for _ in range(4):
        seed = (seed + 0x9E3779B97F4A7C15) & MASK
        z = seed
        z = (z ^ z >> 30) * 0xBF58476D1CE4E5B9 & MASK
        z = (z ^ z >> 27) * 0x94D049BB133111EB & MASK
        state.append(z ^ z >> 31)

    def rotated(x, n):
        return (x << n | x >> 64 - n) & MASK

    while True:
        yield (rotated((state[0] + state[3]) & MASK, 23) + state[0]) & MASK
        shifted = state[1] << 17 & MASK
        state[2] ^= state[0]
        state[3] ^= state[1]
        state[1] ^= state[2]
        state[0] ^= state[3]
        state[2] ^= shifted
        state[3] = rotated(state[3], 45)


def files_of(number):
    words = words_of(number)

    def draw(most):
        return next(words) % most

    def package(at):
        return f"x/p{at:03}"

    files = {"profiles/profiles.desc": "amd64 base stable\namd64 alt dev\n", "profiles/categories": "x\n", "profiles/base/eapi": "8\n",
             "profiles/alt/eapi": "8\n", "profiles/alt/parent": "../base\n", "profiles/alt/use.mask": "a\n", "profiles/alt/use.force": "b\n"}
    for at in range(1000):
        keywords = "amd64" if draw(4) else "~amd64"
        required = ("", "?? ( a b )", "|| ( c d )")[draw(3)]
        items = []
        for _ in range(draw(4)):
            kind, one, two, flag = draw(4), package(draw(1020)), package(draw(1020)), "abcd"[draw(4)]
            items.append((one, f"{flag}? ( {one} )", f"{one}[{flag}?]", f"|| ( {one} {two} )")[kind])
        files["metadata/md5-cache/" + package(at) + "-1"] = (
            f"EAPI=8\nIUSE=a b c d\nKEYWORDS={keywords}\nRDEPEND={' '.join(items)}\nREQUIRED_USE={required}\nSLOT=0\n_md5_={EMPTY}\n")
        files[f"{package(at)}/p{at:03}-1.ebuild"] = ""
    return files
