"""Names that a table can't tell apart quickly, so that it has to compare each with many: a table that looks names up by a
hash finds all of them in one place, unless it has another way."""

# The 32-bit FNV-1a hash.
OFFSET, PRIME = 2166136261, 16777619

# Sixteen texts of six letters in each row. After any texts of the rows before, a name has the same hash after each of
# these. They were searched for from both ends: three letters on from the hash before, and three back from one chosen.
WIDTH = 6
ROWS = [
    "40Jgy597Iq41EoiKGjK7VrvCLlqWYlN7VTKERNd2rkU4dc0gX6NLEHb1quWOcbk73GeHBpDfhWj_1riRP47Om9e2cUpNUQSj",
    "5oeSc19MnReQ9iGO_EHqrAGOLqJazTMlmfljQak_8tRM9j99S_3aVDXzg7SIZNEJuJcYLpsIgsQqXdjMuXYClOn19SnGc0bF",
    "0NtZ2r2qJtBOBSXm1_DScUcvFHPhjHKUtH4PLSHY46PoS1sZQfzpqhYl59bwie0ZJVkA_Lnkqdqpb6sArS3XyRJgWMyqRy4m",
    "3kVGja9897HkDRPf3MFCT3ztGSlZ_1Hc9Jq9LV6iUvTweXd4U_CUq3YdVQFnZ_D_zPcmtP7QgUWgQ9gc80BThhVO3pxuToXr",
    "1XE4pK30wjlQ7mzlRwH2tEYKHu5OU9KKqKVOMhpGKbY7VgMyZkSqlRdapEjeouOApwsR8e5vtL2dzWuizZ70xNONNtzHbqNd",
]


def hash_of(text):
    """The 32-bit FNV-1a hash of a text."""
    found = OFFSET
    for byte in text.encode():
        found = (found ^ byte) * PRIME & 0xFFFFFFFF
    return found


def of_one_hash(count):
    """Makes `count` names of 31 letters, all different and all of one hash: at most 16 to the power of the rows."""
    texts = [[row[at : at + WIDTH] for at in range(0, len(row), WIDTH)] for row in ROWS]
    return ["n" + "".join(row[number >> 4 * place & 15] for place, row in enumerate(texts)) for number in range(count)]


def alike_at_the_ends(count):
    """Makes `count` names, at most a million, that differ in the middle alone: of one length, with the same eight letters at
    each end, and the same one right in the middle."""
    return [f"shadows_{number // 1000:03}x{number % 1000:03}_colours" for number in range(count)]


def used_once(names):
    """A source that defines each of the names, and then uses each."""
    return "".join(f"#define {name} 1\n" for name in names) + "\n".join(names) + "\n"
